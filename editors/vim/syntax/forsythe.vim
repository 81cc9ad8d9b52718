" Vim syntax file for Forsythe (.fy). Made by editors/make from docs/LANGUAGE.md; don't edit it by hand.
if exists("b:current_syntax")
  finish
endif

syntax case match
syntax keyword forsytheWord let letrec lettype where in new escape accept if then else while do loop seq
syntax keyword forsytheOperator and or not ord chr div rem
syntax keyword forsytheConstant skip true false
syntax keyword forsytheType ns int bool char comm compl intacc boolacc characc intvar boolvar charvar intseq boolseq charseq intvarseq
syntax keyword forsythePredefined putint putchar putbool read newintseq
syntax match forsytheSymbol #->\|:=\|<=\|<>\|==\|>=\|&\|\*\|+\|,\|-\|\.\|:\|;\|<\|=\|>\|\\\||#
syntax match forsytheNumber #\<[0-9]\+\>#
syntax match forsytheEscape #\\[nt\\'"]\|\\x[0-9A-Fa-f]\{2}# contained
syntax region forsytheString start=#"# skip=#\\.# end=#"# oneline contains=forsytheEscape
syntax match forsytheCharacter #'\(\\x[0-9A-Fa-f]\{2}\|\\[nt\\'"]\|[^'\\]\)'# contains=forsytheEscape
syntax region forsytheComment start=#{# end=#}#

highlight default link forsytheWord Keyword
highlight default link forsytheOperator Operator
highlight default link forsytheConstant Constant
highlight default link forsytheType Type
highlight default link forsythePredefined Function
highlight default link forsytheSymbol Operator
highlight default link forsytheNumber Number
highlight default link forsytheEscape SpecialChar
highlight default link forsytheString String
highlight default link forsytheCharacter Character
highlight default link forsytheComment Comment

let b:current_syntax = "forsythe"
