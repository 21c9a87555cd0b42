;;; emacs.el --- drives Emacs for try.py  -*- lexical-binding: t -*-

;; Each step waits until it sees what is expected, and writes down what it sees.

(require 'cl-lib)
(require 'json)
(require 'xref)
(require 'eglot)

(defvar try-expected (let ((json-key-type 'string)) (json-read-file (getenv "PROTOLS_EXPECTED"))))
(defvar try-seen `(("version" . ,emacs-version)))

(defun try-wait (seconds done)
  "Let Emacs wait for keys, as it does for a user, until DONE says so, and at most that long."
  (let* ((end (+ (float-time) seconds))
         (timer (run-with-timer 0.05 0.05 (lambda () (when (or (> (float-time) end) (funcall done)) (exit-recursive-edit))))))
    (unwind-protect (recursive-edit) (cancel-timer timer))))

(defun try-step (name see)
  "Wait until SEE gives what NAME is expected to be, and a little longer, in which nothing else may come."
  (try-wait 15 (lambda () (equal (funcall see) (cdr (assoc name try-expected)))))
  (try-wait 1 #'ignore)
  (push (cons name (funcall see)) try-seen))

(defun try-sorted (places)
  (mapconcat #'identity (sort places #'string<) ", "))

(defun try-place (position)
  "The line and the column of POSITION, in characters from 1."
  (save-excursion (goto-char position) (format "%d:%d" (line-number-at-pos) (1+ (- (point) (line-beginning-position))))))

(defun try-number (diagnostic)
  (let ((text (flymake-diagnostic-text diagnostic)))
    (if (string-match "\\[\\([0-9]+\\)\\]" text) (match-string 1 text) text)))

(defun try-diagnostics (buffer)
  (lambda ()
    (with-current-buffer buffer
      (try-sorted (mapcar (lambda (it) (format "%s %s" (try-place (flymake-diagnostic-beg it)) (try-number it))) (flymake-diagnostics))))))

(defun try-item (item)
  "Where an item of Xref is."
  (let ((marker (xref-location-marker (xref-item-location item))))
    (with-current-buffer (marker-buffer marker)
      (format "%s %s" (file-name-nondirectory buffer-file-name) (try-place marker)))))

(defun try-items (items)
  (lambda () (try-sorted (mapcar #'try-item items))))

(defun try-replace (old new)
  (goto-char (point-min))
  (search-forward old)
  (replace-match new t t))

(defun try-go (line column)
  (goto-char (point-min))
  (forward-line (1- line))
  (forward-char column))

(defun try-run ()
  (setq eglot-confirm-server-edits nil eglot-confirm-server-initiated-edits nil make-backup-files nil)
  (find-file "order.proto")
  (let ((order (current-buffer)))
    (try-step "fault" (try-diagnostics order))
    (try-replace "Mony" "Money")
    (try-step "fixed" (try-diagnostics order))

    (select-window (split-window-right))
    (find-file "money.proto")
    (try-replace "Money" "Cash")
    (try-step "other window" (try-diagnostics order))
    (try-replace "Cash" "Money")
    (try-step "other window, fixed" (try-diagnostics order))
    (delete-window)

    (switch-to-buffer order)
    (try-go 5 2)
    (try-step "references" (try-items (xref-backend-references 'eglot (xref-backend-identifier-at-point 'eglot))))
    (try-go 5 2)
    (try-step "definition" (try-items (xref-backend-definitions 'eglot (xref-backend-identifier-at-point 'eglot))))
    (try-step "symbols" (try-items (xref-backend-apropos 'eglot "money")))
    (switch-to-buffer order)
    (try-go 5 2)
    (eglot-rename "Amount")
    (try-step "rename" (lambda () (save-excursion (try-go 5 2) (buffer-substring-no-properties (point) (line-end-position)))))
    (save-some-buffers t)))

(defun try-all ()
  (condition-case fault
      (try-run)
    (error (push (cons "fault_of_the_trial" (format "%S" fault)) try-seen)))
  (with-temp-file (getenv "PROTOLS_SEEN") (insert (json-encode try-seen)))
  (setq kill-emacs-hook nil)
  (kill-emacs 0))

(add-hook 'window-setup-hook #'try-all)

;;; emacs.el ends here
