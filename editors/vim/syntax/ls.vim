" The tokens of .ls files, as docs/LANGUAGE.md has them.
if exists("b:current_syntax")
  finish
endif

" a quote is part of a word, so true' is no keyword and x'a' holds no character
syntax iskeyword @,48-57,_,192-255,39

syntax keyword lsDefinition and clock in last let node rec type where
syntax keyword lsStatement automaton continue do done emit end every match present reset run
syntax keyword lsStatement then unless until with
syntax keyword lsConditional if else
syntax keyword lsStream fby merge pre when whenot
syntax keyword lsOperator mod not or xor
syntax keyword lsFunction int_of_char is_digit is_letter max min odd sign
syntax keyword lsBoolean true false

syntax match lsConstructor "\<[A-Z]\k*"
syntax match lsNumber "\<\d\+"
syntax match lsSymbol "->\|<>\|<=\|>=\|&&\|||\|[=<>+*/&|?-]"
syntax match lsEscape contained "\\[nt\\'\"]"
syntax match lsCharacter "\k\@1<!'\%(\\[nt\\'\"]\|[^\\']\)'" contains=lsEscape
syntax region lsString start=+"+ skip=+\\.+ end=+"+ oneline contains=lsEscape
syntax region lsComment start="(\*" end="\*)" contains=lsComment

highlight default link lsDefinition Keyword
highlight default link lsStatement Statement
highlight default link lsConditional Conditional
highlight default link lsStream Keyword
highlight default link lsOperator Operator
highlight default link lsFunction Function
highlight default link lsBoolean Boolean
highlight default link lsConstructor Type
highlight default link lsNumber Number
highlight default link lsSymbol Operator
highlight default link lsEscape SpecialChar
highlight default link lsCharacter Character
highlight default link lsString String
highlight default link lsComment Comment

let b:current_syntax = "ls"
