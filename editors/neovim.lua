-- protols in Neovim 0.10 or newer: copy this file to ~/.config/nvim/plugin/protols.lua.

if vim.fn.has("nvim-0.10") == 0 then
  vim.notify("protols: this set-up is for Neovim 0.10 or newer", vim.log.levels.WARN)
  return
end

-- Folders outside a project whose files it imports. Debian's libprotobuf-dev puts google/protobuf into /usr/include.
local proto_path = { "/usr/include" }

-- Neovim 0.11 and newer show no words beside a line unless they are told to.
vim.diagnostic.config({ virtual_text = true })

-- What comes for other buffers while one types is shown once one has typed: Neovim would leave it out there.
vim.api.nvim_create_autocmd("InsertLeave", {
  pattern = "*.proto",
  callback = function()
    vim.diagnostic.show()
  end,
})

vim.api.nvim_create_autocmd("FileType", {
  pattern = "proto",
  callback = function(args)
    -- The folder that imports are named from: put a file buf.yaml there if it isn't the repository's, nor the file's own.
    local root = vim.fs.root(args.buf, "buf.yaml") or vim.fs.root(args.buf, ".git") or vim.fn.expand("<afile>:p:h")
    local cmd = { "protols", "serve", "--root", root }
    for _, folder in ipairs(proto_path) do
      if vim.fn.isdirectory(folder) == 1 then
        vim.list_extend(cmd, { "--proto-path", folder })
      end
    end
    vim.lsp.start({
      name = "protols",
      cmd = cmd,
      root_dir = root,
      -- Neovim would ask for the diagnostics of the buffer that changes alone: published ones are renewed in every buffer.
      before_init = function(params)
        params.capabilities.textDocument.diagnostic = nil
      end,
      -- (or it asks all the same, and shows each twice)
      on_init = function(client)
        client.server_capabilities.diagnosticProvider = nil
      end,
    })
  end,
})
