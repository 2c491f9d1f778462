" A text of bodies has the suffix .src. A configuration has .cfg, as other files do: it is one where NUM_PRC stands.
autocmd BufNewFile,BufRead *.src setfiletype fmp
autocmd BufNewFile,BufRead *.cfg if search('\<NUM_PRC\>', 'nw') | set filetype=fmp | endif
