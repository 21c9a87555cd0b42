;;; emacs.el --- protols in Emacs 28 or newer, with Eglot and protobuf-mode  -*- lexical-binding: t -*-

;; Put this into ~/.emacs.d/init.el, with the path of this file:
;;
;;   (load "/usr/share/doc/protols/editors/emacs.el")
;;
;; It needs protobuf-mode and Eglot: Debian's packages are elpa-protobuf-mode, and elpa-eglot before Emacs 29, of which Eglot is a part.
;; With the cursor on a fault, the echo area says what it is; M-x flymake-show-buffer-diagnostics lists all of a buffer.

(require 'project)
(require 'protobuf-mode)
(add-to-list 'auto-mode-alist '("\\.proto\\'" . protobuf-mode))

(defvar protols-proto-path '("/usr/include")
  "Folders outside a project whose files it imports.
Debian's libprotobuf-dev puts google/protobuf into /usr/include.")

(defun protols-root ()
  "The folder that imports are named from.
Put a file buf.yaml there if it isn't the repository's, nor the file's own."
  (let ((project (project-current)))
    (or (locate-dominating-file default-directory "buf.yaml")
        (if project (project-root project) default-directory))))

(defun protols-command (&rest _)
  "The words that start protols for the project of the current buffer."
  `("protols" "serve"
    "--root" ,(expand-file-name (protols-root))
    ,@(mapcan (lambda (folder) (list "--proto-path" folder))
              (seq-filter #'file-directory-p protols-proto-path))))

(with-eval-after-load 'eglot
  (add-to-list 'eglot-server-programs '(protobuf-mode . protols-command)))

(add-hook 'protobuf-mode-hook #'eglot-ensure)

;;; emacs.el ends here
