" syntax of aom's sources, made by tools/manual
if exists("b:current_syntax")
  finish
endif

" of what begins at one place the last one here is taken
syn match aomSourceNumber "\v<%(0x[0-9A-Fa-f_]+|[0-9][0-9_]*)>"
syn match aomSourceAction "\v<%(new|ask|stop|take|hand|none|self|print|after|close|reply|maybe|super|delete|enlist|resume|status|request|message|connect|enlisted)>"
syn match aomSourceKind "\v<%(word|msg)>"
syn match aomSourceFlow "\v<%(let|if|else|loop|while|for|in|break|continue|return|leave|leaveif|trap|catch|defer|assert)>"
syn match aomSourceDeclaration "\v<%(cells|messages|natives|budget|const|enum|class|timer|active|token|native|session|server|of|max|own|construct|destruct|run|cancel|error|accept|service|fn|override|undo|main|noleave|root)>"
syn match aomSourceName "\v%(<%(class|fn|undo|enum|const)\s+)@<=\a\w*"
syn match aomSourceComment "//.*$" contains=@Spell

hi def link aomSourceNumber Number
hi def link aomSourceAction Special
hi def link aomSourceKind Type
hi def link aomSourceFlow Statement
hi def link aomSourceDeclaration Keyword
hi def link aomSourceName Function
hi def link aomSourceComment Comment

let b:current_syntax = "aomsource"
