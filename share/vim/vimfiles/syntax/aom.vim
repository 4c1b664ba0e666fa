" syntax of aom's assembly texts, made by tools/manual
if exists("b:current_syntax")
  finish
endif

" of what begins at one place the last one here is taken
syn match aomWord "\v<%(version|cells|messages|natives|budget|root|plain|session|active|timer|native|server|max|words|own|from|do|main|construct|destruct|run|cancel|error|accept|service|undo|of|over|leaves|quiet|in|out|args|gives|none|word|maybe|left|self|msg|token)>"
syn match aomNumber "\v<-?\d+>|-\d+>"
syn match aomRegister "\v<%(r%(1[0-5]|[0-9])|c%(1[0-5]|[0-9])|w[0-7]|f[0-7])>"
syn match aomName "\v%(<%(class|method)\s+)@<=\a\w*"
syn match aomDeclaration "\v%(%(^|;)\s*)@<=%(image|class|method|end)>"
syn match aomInstruction "\v%(%(^|[;:])\s*)@<=%(const|copy|move|add|sub|mul|and|or|xor|jump|jeq|jlt|jnull|jempty|jactive|jadded|loop|next|print|load|store|take|put|new|newl|delete|push|pushop|pop|popop|popdel|call|trap|ret|leave|leaveif|enlist|issue|setactive|cancel|abort|status|connect|ask|close|takemsg|reply|stop|hand)>"
syn match aomLabel "\v%(%(^|;)\s*)@<=\a\w*\s*:"
syn match aomComment "#.*$" contains=@Spell

hi def link aomWord Type
hi def link aomNumber Number
hi def link aomRegister Identifier
hi def link aomName Function
hi def link aomDeclaration Keyword
hi def link aomInstruction Statement
hi def link aomLabel Label
hi def link aomComment Comment

let b:current_syntax = "aom"
