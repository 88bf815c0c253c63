" Definitions and proofs of Rattle.
if exists("b:current_syntax") && b:current_syntax ==# "antt"
  finish
endif

syntax iskeyword @,48-57,_,192-255,-,'
syntax keyword anttKeyword use module pub abbrev unfoldable unfolding record data where let in as infixr infixl infix elim rw at
syntax keyword anttSearch search grind omega arith cc ruleset refl
syntax keyword anttConditional if then else cond
syntax keyword anttBoolean true false
syntax match anttType "\<[A-Z][A-Za-z0-9_']*\>"
syntax match anttNumber "\<[0-9]\+\>"
syntax match anttOperator "[→×⊎≡∷≤<↔λ∙¬⊤⊥]"
syntax match anttOperator "++\|==\|&&\|||\|↦"
" what a line defines
syntax match anttDefined "^\s*\(\(abbrev\|unfoldable\)\s\+\)\?\(pub\s\+\)\?\zs[^ :({]\+\ze\s*:"
syntax match anttHole "?"
syntax region anttString start=+"+ skip=+\\"+ end=+"+
syntax match anttComment "--\( .*\)\?$"

highlight default link anttKeyword Keyword
highlight default link anttSearch Function
highlight default link anttConditional Conditional
highlight default link anttBoolean Boolean
highlight default link anttType Type
highlight default link anttNumber Number
highlight default link anttOperator Operator
highlight default link anttDefined Identifier
highlight default link anttHole Todo
highlight default link anttString String
highlight default link anttComment Comment

let b:current_syntax = "antt"
