"""What editors need for assembly texts and scripts, made from the table of instructions, the words of texts and the lines of scripts: files for Vim, a mode
for Emacs, a TextMate grammar, and a folder for VS Code."""

import json
import re

import form

SCRIPTS_PAGE = "docs/script-and-transcript.md"

# words that begin a statement outside methods, or end one
DECLARING = ("image", "class", "method", "end")
REGISTER = "r(?:1[0-5]|[0-9])|c(?:1[0-5]|[0-9])|w[0-7]|f[0-7]"

VIM = """\
" syntax of aom's assembly texts, made by tools/manual
if exists("b:current_syntax")
  finish
endif

" of what begins at one place the last one here is taken
syn match aomWord "\\v<%({words})>"
syn match aomNumber "\\v<-?\\d+>|-\\d+>"
syn match aomRegister "\\v<%({registers})>"
syn match aomName "\\v%(<%(class|method)\\s+)@<=\\a\\w*"
syn match aomDeclaration "\\v%(%(^|;)\\s*)@<=%({declaring})>"
syn match aomInstruction "\\v%(%(^|[;:])\\s*)@<=%({instructions})>"
syn match aomLabel "\\v%(%(^|;)\\s*)@<=\\a\\w*\\s*:"
syn match aomComment "#.*$" contains=@Spell

hi def link aomWord Type
hi def link aomNumber Number
hi def link aomRegister Identifier
hi def link aomName Function
hi def link aomDeclaration Keyword
hi def link aomInstruction Statement
hi def link aomLabel Label
hi def link aomComment Comment

let b:current_syntax = "aom"
"""

VIM_FILES = """\
" assembly texts, sources and scripts of aom, made by tools/manual
autocmd BufRead,BufNewFile *.aom setfiletype aom
autocmd BufRead,BufNewFile *.ao setfiletype aomsource
autocmd BufRead,BufNewFile *.script if search('\\v^\\s*%(refuse\\s+\\d|\\d+\\s+%({words})>)', 'nw') | setfiletype aomscript | endif
"""

VIM_PLUGIN = """\
" how assembly texts of aom are edited and checked, made by tools/manual
if exists("b:did_ftplugin")
  finish
endif
let b:did_ftplugin = 1
setlocal commentstring=#\\ %s comments=:#
compiler aom
let b:undo_ftplugin = "setlocal commentstring< comments< makeprg< errorformat<"
"""

VIM_COMPILER = """\
" :make leads to the line of a fault, made by tools/manual
if exists("current_compiler")
  finish
endif
let current_compiler = "aom"
CompilerSet makeprg=aom\\ check\\ --lines\\ --asm\\ %:S
CompilerSet errorformat=%f:%l:\\ %m,%f:\\ %m,%-G%.%#
"""

VIM_SCRIPTS = """\
" syntax of aom's scripts, made by tools/manual
if exists("b:current_syntax")
  finish
endif

syn match aomScriptNumber "\\v<-?\\d+>|-\\d+>"
syn match aomScriptWord "\\v%(%(^|\\s))@<=%({words})>"
syn match aomScriptTime "\\v^\\s*\\d+>"

hi def link aomScriptNumber Number
hi def link aomScriptWord Statement
hi def link aomScriptTime Label

let b:current_syntax = "aomscript"
"""

EMACS = r""";;; aom-mode.el --- assembly texts of aom  -*- lexical-binding: t; -*-

;; made by tools/manual

;;; Commentary:
;; Colours, comments, and a compile command that leads to the line of a fault.

;;; Code:

(defconst aom-mode-words
  '({words})
  "Words of declarations.")

(defconst aom-mode-declaring
  '({declaring})
  "Words that begin or end a declaration.")

(defconst aom-mode-instructions
  '({instructions})
  "Mnemonics.")

(defvar aom-mode-syntax-table
  (let ((table (make-syntax-table)))
    (modify-syntax-entry ?# "<" table)
    (modify-syntax-entry ?\n ">" table)
    (modify-syntax-entry ?_ "w" table)
    table)
  "Syntax of assembly texts.")

(defvar aom-mode-font-lock
  `((,(concat "\\(?:^\\|;\\)\\s-*\\(" (regexp-opt aom-mode-declaring) "\\)\\_>") 1 font-lock-keyword-face)
    ("\\_<\\(?:class\\|method\\)\\s-+\\(\\sw+\\)" 1 font-lock-function-name-face)
    ("\\(?:^\\|;\\)\\s-*\\(\\sw+\\s-*:\\)" 1 font-lock-constant-face)
    (,(concat "\\(?:^\\|[;:]\\)\\s-*\\(" (regexp-opt aom-mode-instructions) "\\)\\_>") 1 font-lock-builtin-face)
    ("\\_<\\(?:[rc]\\(?:1[0-5]\\|[0-9]\\)\\|[wf][0-7]\\)\\_>" . font-lock-variable-name-face)
    (,(regexp-opt aom-mode-words 'symbols) . font-lock-type-face))
  "Colours of assembly texts.")

;;;###autoload
(define-derived-mode aom-mode prog-mode "aom"
  "Mode for assembly texts of aom."
  (setq-local comment-start "# ")
  (setq-local comment-end "")
  (setq-local font-lock-defaults '(aom-mode-font-lock))
  (when buffer-file-name
    (setq-local compile-command
                (concat "aom check --lines --asm " (shell-quote-argument (file-name-nondirectory buffer-file-name))))))

;;;###autoload
(add-to-list 'auto-mode-alist '("\\.aom\\'" . aom-mode))

(provide 'aom-mode)
;;; aom-mode.el ends here
"""


def words():
    """The words of the language that declare nothing by themselves."""
    return [it for it in form.keywords() if it not in DECLARING]


def mnemonics():
    return [it.mnemonic for it in form.instructions()]


def vim():
    registers = REGISTER.replace("(?:", "%(")
    return VIM.format(words="|".join(words()), declaring="|".join(DECLARING), instructions="|".join(mnemonics()), registers=registers)


def script_words():
    """The words of a script's lines, as the page of scripts has them."""
    found = [it for line, _ in form.table_of(SCRIPTS_PAGE, "Lines") for it in re.findall(r"[a-z]+", line) if line.startswith("`")]
    return sorted(set(found))


def vim_files():
    return VIM_FILES.format(words="|".join(it for it in script_words() if it != "refuse"))


def vim_plugin():
    return VIM_PLUGIN


def vim_compiler():
    return VIM_COMPILER


def vim_scripts():
    return VIM_SCRIPTS.format(words="|".join(script_words()))


def emacs():
    def quoted(names):
        return " ".join(f'"{it}"' for it in names)

    return EMACS.format(words=quoted(words()), declaring=quoted(DECLARING), instructions=quoted(mnemonics()))


# the folder for VS Code

PLACED = {"owner": "aom", "fileLocation": ["autoDetect", "${workspaceFolder}"]}
PROBLEMS = [
    {"name": "aom", **PLACED, "pattern": [{"regexp": r"^(.+?):(\d+): (.+)$", "file": 1, "line": 2, "message": 3}]},
    {"name": "aomsource", **PLACED, "pattern": [{"regexp": r"^(.+?):(\d+):(\d+): (.+)$", "file": 1, "line": 2, "column": 3, "message": 4}]},
]
# the languages of the folder: an id, what it is called, the ending of its files, and where its comments and brackets stand
LANGUAGES = (("aom", "aom", ".aom", "language-configuration"), ("aomsource", "aom source", ".ao", "source-configuration"))


def told(content):
    return json.dumps(content, indent=2) + "\n"


def code_package():
    languages = [{"id": it, "aliases": [name], "extensions": [ending], "configuration": f"./{file}.json"} for it, name, ending, file in LANGUAGES]
    grammars = [{"language": it, "scopeName": f"source.{it}", "path": f"./syntaxes/{it}.tmLanguage.json"} for it, *_ in LANGUAGES]
    contributes = {"languages": languages, "grammars": grammars, "problemMatchers": PROBLEMS}
    head = {"name": "aom", "displayName": "aom", "description": "Sources and assembly texts of aom; aom lsp is the language server of sources", "version": form.version(), "publisher": "lumetriko", "license": "MIT OR Apache-2.0"}
    return told({**head, "engines": {"vscode": "^1.70.0"}, "categories": ["Programming Languages"], "contributes": contributes})


def code_language():
    return told({"comments": {"lineComment": "#"}})


def code_tasks():
    """For a workspace's own folder .vscode: build tasks that lead to the line of a fault."""
    asked = (("aom check", "--lines --asm", "$aom"), ("aom check of a source", "--source", "$aomsource"))
    tasks = [{"label": label, "type": "shell", "command": f"aom check {words} ${{file}}", "group": "build", "problemMatcher": to} for label, words, to in asked]
    return told({"version": "2.0.0", "tasks": tasks})


def pattern(name, match):
    return {"name": f"{name}.aom", "match": match}


def captured(match, name):
    """A pattern whose group has that name."""
    return {"match": match, "captures": {"1": {"name": f"{name}.aom"}}}


def textmate():
    """The grammar. Of what begins at one place the first one here is taken."""
    begins, word = r"(?:^|(?<=[;:]))\s*", rf"\b(?:{'|'.join(words())})\b"
    rules = [
        pattern("comment.line.number-sign", r"#.*$"),
        captured(rf"{begins}({'|'.join(DECLARING)})\b", "keyword.control"),
        captured(r"(?:(?<=\bclass\s)|(?<=\bmethod\s))\s*([A-Za-z]\w*)", "entity.name"),
        captured(rf"{begins}([A-Za-z]\w*\s*:)", "entity.name.label"),
        captured(rf"{begins}({'|'.join(mnemonics())})\b", "keyword.operator"),
        pattern("variable.language", rf"\b(?:{REGISTER})\b"),
        pattern("storage.type", word),
        pattern("constant.numeric", r"-?\b[0-9]+\b"),
    ]
    grammar = {"comment": "made by tools/manual", "name": "aom", "scopeName": "source.aom", "fileTypes": ["aom"], "patterns": rules}
    return json.dumps(grammar, indent=2) + "\n"
