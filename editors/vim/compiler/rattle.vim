" `:compiler rattle`, then `:make` proves the crate of this file, and `:make --only crate::module::function` one function.
if exists("current_compiler")
  finish
endif
let current_compiler = "rattle"

CompilerSet makeprg=rt\ check\ $*
CompilerSet errorformat=%f:%l:%c:\ %trror:\ %m,%f:%l:%c:\ %tarning:\ %m,note:\ %f:%l:%c:\ %m,%-G%.%#
