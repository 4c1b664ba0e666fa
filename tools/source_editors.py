"""What editors need for sources, made from the keywords of the language: files for Vim, a mode for Emacs, a TextMate grammar, and parts of the folder for VS Code."""

import json

import form

# words that begin a declaration or a method, those of a statement's flow, and those of kinds; all others do something
DECLARING = (
    "cells messages natives budget const enum class timer active token native session server of max own construct destruct run cancel error accept"
    " service fn override undo main noleave root"
).split()
FLOW = "let if else loop while for in break continue return leave leaveif trap catch defer assert".split()
KINDS = "word msg".split()

VIM = """\
" syntax of aom's sources, made by tools/manual
if exists("b:current_syntax")
  finish
endif

" of what begins at one place the last one here is taken
syn match aomSourceNumber "\\v<%(0x[0-9A-Fa-f_]+|[0-9][0-9_]*)>"
syn match aomSourceAction "\\v<%({actions})>"
syn match aomSourceKind "\\v<%({kinds})>"
syn match aomSourceFlow "\\v<%({flow})>"
syn match aomSourceDeclaration "\\v<%({declaring})>"
syn match aomSourceName "\\v%(<%(class|fn|undo|enum|const)\\s+)@<=\\a\\w*"
syn match aomSourceComment "//.*$" contains=@Spell

hi def link aomSourceNumber Number
hi def link aomSourceAction Special
hi def link aomSourceKind Type
hi def link aomSourceFlow Statement
hi def link aomSourceDeclaration Keyword
hi def link aomSourceName Function
hi def link aomSourceComment Comment

let b:current_syntax = "aomsource"
"""

VIM_PLUGIN = """\
" how sources of aom are edited and checked, made by tools/manual
if exists("b:did_ftplugin")
  finish
endif
let b:did_ftplugin = 1
setlocal commentstring=//\\ %s comments=:// cindent cinoptions=+0,L0
compiler aomsource
let b:undo_ftplugin = "setlocal commentstring< comments< cindent< cinoptions< makeprg< errorformat<"
"""

VIM_COMPILER = """\
" :make leads to the line and column of a fault, made by tools/manual
if exists("current_compiler")
  finish
endif
let current_compiler = "aomsource"
CompilerSet makeprg=aom\\ check\\ --source\\ %:S
CompilerSet errorformat=%f:%l:%c:\\ %m,%-G%.%#
"""

EMACS = r""";;; aom-source-mode.el --- sources of aom  -*- lexical-binding: t; -*-

;; made by tools/manual

;;; Commentary:
;; Colours, comments, and a compile command that leads to the place of a fault.

;;; Code:

(defconst aom-source-mode-declaring
  '({declaring})
  "Words of declarations.")

(defconst aom-source-mode-flow
  '({flow})
  "Words that say where a method continues.")

(defconst aom-source-mode-kinds
  '({kinds})
  "Words of kinds.")

(defconst aom-source-mode-actions
  '({actions})
  "All other words.")

(defvar aom-source-mode-syntax-table
  (let ((table (make-syntax-table)))
    (modify-syntax-entry ?/ ". 12" table)
    (modify-syntax-entry ?\n ">" table)
    (modify-syntax-entry ?_ "w" table)
    table)
  "Syntax of sources.")

(defvar aom-source-mode-font-lock
  `(("\\_<\\(?:class\\|fn\\|undo\\|enum\\|const\\)\\s-+\\(\\sw+\\)" 1 font-lock-function-name-face)
    (,(regexp-opt aom-source-mode-declaring 'symbols) . font-lock-keyword-face)
    (,(regexp-opt aom-source-mode-flow 'symbols) . font-lock-keyword-face)
    (,(regexp-opt aom-source-mode-kinds 'symbols) . font-lock-type-face)
    (,(regexp-opt aom-source-mode-actions 'symbols) . font-lock-builtin-face))
  "Colours of sources.")

;;;###autoload
(define-derived-mode aom-source-mode prog-mode "aom source"
  "Mode for sources of aom."
  (setq-local comment-start "// ")
  (setq-local comment-end "")
  (setq-local font-lock-defaults '(aom-source-mode-font-lock))
  (when buffer-file-name
    (setq-local compile-command
                (concat "aom check --source " (shell-quote-argument (file-name-nondirectory buffer-file-name))))))

;;;###autoload
(add-to-list 'auto-mode-alist '("\\.ao\\'" . aom-source-mode))

(provide 'aom-source-mode)
;;; aom-source-mode.el ends here
"""


def actions():
    """The keywords that are none of the others."""
    others = {*DECLARING, *FLOW, *KINDS}
    return [it for it in form.source_keywords() if it not in others]


def groups():
    """The words of each group."""
    return {"declaring": DECLARING, "flow": FLOW, "kinds": KINDS, "actions": actions()}


def vim():
    return VIM.format(**{name: "|".join(words) for name, words in groups().items()})


def vim_plugin():
    return VIM_PLUGIN


def vim_compiler():
    return VIM_COMPILER


def emacs():
    return EMACS.format(**{name: " ".join(f'"{it}"' for it in words) for name, words in groups().items()})


def told(content):
    return json.dumps(content, indent=2) + "\n"


def code_language():
    brackets = [["{", "}"], ["(", ")"]]
    return told({"comments": {"lineComment": "//"}, "brackets": brackets, "autoClosingPairs": brackets})


def pattern(name, words):
    return {"name": f"{name}.aomsource", "match": rf"\b(?:{'|'.join(words)})\b"}


def textmate():
    """The grammar. Of what begins at one place the first one here is taken."""
    rules = [
        {"name": "comment.line.double-slash.aomsource", "match": r"//.*$"},
        {
            "match": r"\b(?:class|fn|undo|enum|const)\s+([A-Za-z]\w*)",
            "captures": {"0": {"name": "keyword.control.aomsource"}, "1": {"name": "entity.name.aomsource"}},
        },
        pattern("keyword.control", DECLARING),
        pattern("keyword.control", FLOW),
        pattern("storage.type", KINDS),
        pattern("keyword.operator", actions()),
        {"name": "constant.numeric.aomsource", "match": r"\b(?:0x[0-9A-Fa-f_]+|[0-9][0-9_]*)\b"},
    ]
    return told({"comment": "made by tools/manual", "name": "aom source", "scopeName": "source.aomsource", "fileTypes": ["ao"], "patterns": rules})
