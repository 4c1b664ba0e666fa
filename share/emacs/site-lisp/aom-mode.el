;;; aom-mode.el --- assembly texts of aom  -*- lexical-binding: t; -*-

;; made by tools/manual

;;; Commentary:
;; Colours, comments, and a compile command that leads to the line of a fault.

;;; Code:

(defconst aom-mode-words
  '("version" "cells" "messages" "natives" "budget" "root" "plain" "session" "active" "timer" "native" "server" "max" "words" "own" "from" "do" "main" "construct" "destruct" "run" "cancel" "error" "accept" "service" "undo" "of" "over" "leaves" "quiet" "in" "out" "args" "gives" "none" "word" "maybe" "left" "self" "msg" "token")
  "Words of declarations.")

(defconst aom-mode-declaring
  '("image" "class" "method" "end")
  "Words that begin or end a declaration.")

(defconst aom-mode-instructions
  '("const" "copy" "move" "add" "sub" "mul" "and" "or" "xor" "jump" "jeq" "jlt" "jnull" "jempty" "jactive" "jadded" "loop" "next" "print" "load" "store" "take" "put" "new" "newl" "delete" "push" "pushop" "pop" "popop" "popdel" "call" "trap" "ret" "leave" "leaveif" "enlist" "issue" "setactive" "cancel" "abort" "status" "connect" "ask" "close" "takemsg" "reply" "stop" "hand")
  "Mnemonics.")

(defvar aom-mode-syntax-table
  (let ((table (make-syntax-table)))
    (modify-syntax-entry ?# "<" table)
    (modify-syntax-entry ?\n ">" table)
    (modify-syntax-entry ?_ "w" table)
    table)
  "Syntax of assembly texts.")

(defvar aom-mode-font-lock
  `((,(concat "\\(?:^\\|;\\)\\s-*\\(" (regexp-opt aom-mode-declaring) "\\)\\_>") 1 font-lock-keyword-face)
    ("\\_<\\(?:class\\|method\\)\\s-+\\(\\sw+\\)" 1 font-lock-function-name-face)
    ("\\(?:^\\|;\\)\\s-*\\(\\sw+\\s-*:\\)" 1 font-lock-constant-face)
    (,(concat "\\(?:^\\|[;:]\\)\\s-*\\(" (regexp-opt aom-mode-instructions) "\\)\\_>") 1 font-lock-builtin-face)
    ("\\_<\\(?:[rc]\\(?:1[0-5]\\|[0-9]\\)\\|[wf][0-7]\\)\\_>" . font-lock-variable-name-face)
    (,(regexp-opt aom-mode-words 'symbols) . font-lock-type-face))
  "Colours of assembly texts.")

;;;###autoload
(define-derived-mode aom-mode prog-mode "aom"
  "Mode for assembly texts of aom."
  (setq-local comment-start "# ")
  (setq-local comment-end "")
  (setq-local font-lock-defaults '(aom-mode-font-lock))
  (when buffer-file-name
    (setq-local compile-command
                (concat "aom check --lines --asm " (shell-quote-argument (file-name-nondirectory buffer-file-name))))))

;;;###autoload
(add-to-list 'auto-mode-alist '("\\.aom\\'" . aom-mode))

(provide 'aom-mode)
;;; aom-mode.el ends here
