" assembly texts, sources and scripts of aom, made by tools/manual
autocmd BufRead,BufNewFile *.aom setfiletype aom
autocmd BufRead,BufNewFile *.ao setfiletype aomsource
autocmd BufRead,BufNewFile *.script if search('\v^\s*%(refuse\s+\d|\d+\s+%(close|connect|die|event|kill|send)>)', 'nw') | setfiletype aomscript | endif
