" :make checks the specification in the buffer by ccsl-show, and the list of errors has the places that it names.
if exists("current_compiler")
  finish
endif
let current_compiler = "ccsl"

CompilerSet makeprg=ccsl-show\ check\ spec=%:S
" a place, FILE:LINE:COLUMN, alone or with a text behind it; nothing is kept of the other lines
CompilerSet errorformat=%f:%l:%c:\ %m,%f:%l:%c%.%#,%-G%.%#
