" :make leads to the line and column of a fault, made by tools/manual
if exists("current_compiler")
  finish
endif
let current_compiler = "aomsource"
CompilerSet makeprg=aom\ check\ --source\ %:S
CompilerSet errorformat=%f:%l:%c:\ %m,%-G%.%#
