" Code of Rattle: Rust, with clauses and ghost members in braces that hold definitions.
if exists("b:current_syntax")
  finish
endif

runtime! syntax/rust.vim
unlet! b:current_syntax
syntax include @rattleGhost syntax/antt.vim
unlet! b:current_syntax

syntax match rattleClause "\<\(ghost\|requires\|ensures\)\>"
" `ensures name { .. }`, `requires { .. }`, `ghost name = { .. }`, `ghost use ..;`
syntax region rattleClauseText matchgroup=rattleBrace start="\<\(requires\|ensures\*\?\)\(\s\+\w\+\)\?\s*{" end="}" contains=rattleInner,@rattleGhost keepend extend
syntax region rattleClauseText matchgroup=rattleBrace start="\<ghost\s\+\w\+\s*[=:]\s*{" end="}" contains=rattleInner,@rattleGhost keepend extend
syntax region rattleInner start="{" end="}" contained contains=rattleInner,@rattleGhost extend
syntax match rattleGhostUse "\<ghost use [^;]*;" contains=@rattleGhost

highlight default link rattleClause PreProc
highlight default link rattleBrace PreProc
highlight default link rattleGhostUse Include

let b:current_syntax = "rattle"
