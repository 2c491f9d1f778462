" Comments, indents, and `:make`, which shows what `fmp_view fault` says of the two texts of this name.
if exists("b:did_ftplugin")
  finish
endif
let b:did_ftplugin = 1

setlocal commentstring=//\ %s comments=s1:/*,mb:*,ex:*/,://
setlocal shiftwidth=4 softtabstop=4 expandtab cindent
let &l:makeprg = 'fmp_view fault "%:r.cfg" "%:r.src"'
let &l:errorformat = '%f:%l:%c: %t%*[a-z]: %m,%f:%l:%c: %m,%-G%.%#'

let b:undo_ftplugin = 'setlocal commentstring< comments< shiftwidth< softtabstop< expandtab< cindent<'
let b:undo_ftplugin .= ' makeprg< errorformat<'
