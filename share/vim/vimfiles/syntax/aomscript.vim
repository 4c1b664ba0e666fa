" syntax of aom's scripts, made by tools/manual
if exists("b:current_syntax")
  finish
endif

syn match aomScriptNumber "\v<-?\d+>|-\d+>"
syn match aomScriptWord "\v%(%(^|\s))@<=%(close|connect|die|event|kill|refuse|send)>"
syn match aomScriptTime "\v^\s*\d+>"

hi def link aomScriptNumber Number
hi def link aomScriptWord Statement
hi def link aomScriptTime Label

let b:current_syntax = "aomscript"
