;;; bplserve.el --- Boogie programs in Emacs, checked by flycheck  -*- lexical-binding: t -*-

;; In init.el:
;;
;;     (load "/path/to/bplserve/examples/editor/bplserve.el")

;;; Code:

(require 'flycheck)

(defvar bplserve-check
  (expand-file-name "check.py" (file-name-directory (or load-file-name buffer-file-name)))
  "The program that checks a file.")

(define-derived-mode boogie-mode prog-mode "Boogie"
  "A mode for Boogie programs."
  (setq-local comment-start "// ")
  (modify-syntax-entry ?/ ". 124b")
  (modify-syntax-entry ?* ". 23")
  (modify-syntax-entry ?\n "> b"))

(add-to-list 'auto-mode-alist '("\\.bpl\\'" . boogie-mode))

(flycheck-define-command-checker 'bplserve
  "A checker of Boogie programs."
  :command `(,bplserve-check source)
  :error-patterns
  '((error line-start (file-name) "(" line "," column "): Error: " (message) line-end)
    (info line-start (file-name) "(" line "," column "): Related location: " (message) line-end))
  :modes 'boogie-mode)

(add-to-list 'flycheck-checkers 'bplserve)
(add-hook 'boogie-mode-hook #'flycheck-mode)

(provide 'bplserve)

;;; bplserve.el ends here
