" :make leads to the line of a fault, made by tools/manual
if exists("current_compiler")
  finish
endif
let current_compiler = "aom"
CompilerSet makeprg=aom\ check\ --lines\ --asm\ %:S
CompilerSet errorformat=%f:%l:\ %m,%f:\ %m,%-G%.%#
