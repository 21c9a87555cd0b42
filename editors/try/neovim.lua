-- Drives Neovim for try.py: each step waits until it sees what is expected, and writes down what it sees.
if vim.fn.has("nvim-0.10") == 0 then
  vim.fn.writefile({ '{"not tried":"the set-up is for Neovim 0.10 or newer"}' }, vim.env.PROTOLS_SEEN)
  vim.api.nvim_command("qall!")
end

local expected = vim.json.decode(table.concat(vim.fn.readfile(vim.env.PROTOLS_EXPECTED), "\n"))
local seen = { version = tostring(vim.version()) }

-- The steps are a coroutine, so that Neovim handles keys and messages in between, as it does for a user.
local steps

local function pause(milliseconds)
  vim.defer_fn(function() coroutine.resume(steps) end, milliseconds)
  coroutine.yield()
end

local function wait(is_done)
  for _ = 1, 300 do
    if is_done() then
      return
    end
    pause(50)
  end
end

-- Waits until a function gives what is expected, and a little longer, in which nothing else may come.
local function step(name, see)
  wait(function() return see() == expected[name] end)
  pause(400)
  seen[name] = see()
end

local function keys(...)
  for _, some in ipairs({ ... }) do
    vim.api.nvim_input(some)
    pause(400)
  end
end

-- The column of a byte of a line, counted in characters from 1.
local function column(buffer, line, byte)
  local text = vim.api.nvim_buf_get_lines(buffer, line, line + 1, false)[1] or ""
  return vim.str_utfindex(text, math.min(byte, #text)) + 1
end

local function sorted(places)
  table.sort(places)
  return table.concat(places, ", ")
end

-- Whether words are shown beside a line.
local function is_shown(buffer, line)
  for _, it in pairs(vim.diagnostic.get_namespaces()) do
    local shown = it.user_data.virt_text_ns
    if shown and #vim.api.nvim_buf_get_extmarks(buffer, shown, { line, 0 }, { line, -1 }, {}) > 0 then
      return true
    end
  end
  return false
end

local function diagnostics(buffer)
  return function()
    local found = {}
    for _, it in ipairs(vim.diagnostic.get(buffer)) do
      if it.source == "protols" then
        local place = string.format("%d:%d %s", it.lnum + 1, column(buffer, it.lnum, it.col), it.code)
        table.insert(found, place .. (is_shown(buffer, it.lnum) and "" or " not shown"))
      end
    end
    return sorted(found)
  end
end

-- The entries of the list that references and symbols fill.
local function listed()
  local found = {}
  for _, it in ipairs(vim.fn.getqflist()) do
    vim.fn.bufload(it.bufnr)
    local file = vim.fs.basename(vim.api.nvim_buf_get_name(it.bufnr))
    table.insert(found, string.format("%s %d:%d", file, it.lnum, column(it.bufnr, it.lnum - 1, it.col - 1)))
  end
  return sorted(found)
end

local function run()
  vim.cmd.edit("order.proto")
  local order = vim.api.nvim_get_current_buf()
  step("fault", diagnostics(order))
  keys("6G0fM", "cwMoney", "<Esc>")
  step("fixed", diagnostics(order))

  vim.cmd.vsplit("money.proto")
  keys("3Gw", "cwCash", "<Esc>")
  step("other window", diagnostics(order))
  keys("u")
  step("other window, fixed", diagnostics(order))
  vim.cmd.close()

  vim.api.nvim_win_set_cursor(0, { 5, 2 })
  vim.lsp.buf.references()
  step("references", listed)
  vim.cmd.cclose()
  vim.api.nvim_win_set_cursor(0, { 5, 2 })
  vim.lsp.buf.definition()
  step("definition", function()
    local place = vim.api.nvim_win_get_cursor(0)
    return string.format("%s %d:%d", vim.fn.expand("%:t"), place[1], column(0, place[1] - 1, place[2]))
  end)
  vim.lsp.buf.workspace_symbol("money")
  step("symbols", listed)
  vim.cmd.cclose()

  vim.cmd.buffer(order)
  vim.api.nvim_win_set_cursor(0, { 5, 2 })
  vim.lsp.buf.rename("Amount")
  step("rename", function() return vim.trim(vim.fn.getline(5)) end)
  vim.cmd.wall()
end

steps = coroutine.create(function()
  local ok, fault = pcall(run)
  seen.fault_of_the_trial = not ok and fault or nil
  vim.fn.writefile({ vim.json.encode(seen) }, vim.env.PROTOLS_SEEN)
  vim.cmd.qall({ bang = true })
end)
vim.schedule(function() coroutine.resume(steps) end)
