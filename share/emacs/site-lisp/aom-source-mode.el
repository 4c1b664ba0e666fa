;;; aom-source-mode.el --- sources of aom  -*- lexical-binding: t; -*-

;; made by tools/manual

;;; Commentary:
;; Colours, comments, and a compile command that leads to the place of a fault.

;;; Code:

(defconst aom-source-mode-declaring
  '("cells" "messages" "natives" "budget" "const" "enum" "class" "timer" "active" "token" "native" "session" "server" "of" "max" "own" "construct" "destruct" "run" "cancel" "error" "accept" "service" "fn" "override" "undo" "main" "noleave" "root")
  "Words of declarations.")

(defconst aom-source-mode-flow
  '("let" "if" "else" "loop" "while" "for" "in" "break" "continue" "return" "leave" "leaveif" "trap" "catch" "defer" "assert")
  "Words that say where a method continues.")

(defconst aom-source-mode-kinds
  '("word" "msg")
  "Words of kinds.")

(defconst aom-source-mode-actions
  '("new" "ask" "stop" "take" "hand" "none" "self" "print" "after" "close" "reply" "maybe" "super" "delete" "enlist" "resume" "status" "request" "message" "connect" "enlisted")
  "All other words.")

(defvar aom-source-mode-syntax-table
  (let ((table (make-syntax-table)))
    (modify-syntax-entry ?/ ". 12" table)
    (modify-syntax-entry ?\n ">" table)
    (modify-syntax-entry ?_ "w" table)
    table)
  "Syntax of sources.")

(defvar aom-source-mode-font-lock
  `(("\\_<\\(?:class\\|fn\\|undo\\|enum\\|const\\)\\s-+\\(\\sw+\\)" 1 font-lock-function-name-face)
    (,(regexp-opt aom-source-mode-declaring 'symbols) . font-lock-keyword-face)
    (,(regexp-opt aom-source-mode-flow 'symbols) . font-lock-keyword-face)
    (,(regexp-opt aom-source-mode-kinds 'symbols) . font-lock-type-face)
    (,(regexp-opt aom-source-mode-actions 'symbols) . font-lock-builtin-face))
  "Colours of sources.")

;;;###autoload
(define-derived-mode aom-source-mode prog-mode "aom source"
  "Mode for sources of aom."
  (setq-local comment-start "// ")
  (setq-local comment-end "")
  (setq-local font-lock-defaults '(aom-source-mode-font-lock))
  (when buffer-file-name
    (setq-local compile-command
                (concat "aom check --source " (shell-quote-argument (file-name-nondirectory buffer-file-name))))))

;;;###autoload
(add-to-list 'auto-mode-alist '("\\.ao\\'" . aom-source-mode))

(provide 'aom-source-mode)
;;; aom-source-mode.el ends here
