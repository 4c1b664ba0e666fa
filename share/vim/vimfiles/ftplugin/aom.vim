" how assembly texts of aom are edited and checked, made by tools/manual
if exists("b:did_ftplugin")
  finish
endif
let b:did_ftplugin = 1
setlocal commentstring=#\ %s comments=:#
compiler aom
let b:undo_ftplugin = "setlocal commentstring< comments< makeprg< errorformat<"
