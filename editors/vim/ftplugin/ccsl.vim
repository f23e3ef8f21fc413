" Comments of CCSL specifications, and the places that ccsl-show names: FILE:LINE:COLUMN.
if exists("b:did_ftplugin")
  finish
endif
let b:did_ftplugin = 1

setlocal comments=:// commentstring=//\ %s formatoptions-=t formatoptions+=croql
setlocal suffixesadd=.ccsl
compiler ccsl

let b:undo_ftplugin = "setlocal comments< commentstring< formatoptions< suffixesadd< makeprg< errorformat<"
