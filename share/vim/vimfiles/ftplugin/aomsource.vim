" how sources of aom are edited and checked, made by tools/manual
if exists("b:did_ftplugin")
  finish
endif
let b:did_ftplugin = 1
setlocal commentstring=//\ %s comments=:// cindent cinoptions=+0,L0
compiler aomsource
let b:undo_ftplugin = "setlocal commentstring< comments< cindent< cinoptions< makeprg< errorformat<"
