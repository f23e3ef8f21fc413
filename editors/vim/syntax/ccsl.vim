" Highlighting of CCSL specifications in the text form of ccsl.
if exists("b:current_syntax")
  finish
endif

syntax case match

syntax match ccslComment "//.*$" contains=@Spell
syntax match ccslNumber "\<\d\+\>"
syntax region ccslWord start=+"+ end=+"+ oneline contains=ccslBadLetter
syntax match ccslBadLetter "[^01()\"]" contained
syntax match ccslName "\<\h\w*\>"
syntax match ccslCall "\<\h\w*\>\ze\s*("

syntax keyword ccslStructure ccsl relation expression and system
syntax keyword ccslKind clock number word define
syntax keyword ccslChoice if use else head tail ended
syntax keyword ccslRelation subclock coincides excludes precedes within weakly
syntax keyword ccslOperator union inter minus inf sup delay await filter upto sampled on delayed then
syntax keyword ccslConstant never
syntax keyword ccslReserved from

highlight default link ccslComment Comment
highlight default link ccslNumber Number
highlight default link ccslWord String
highlight default link ccslBadLetter Error
highlight default link ccslCall Function
highlight default link ccslStructure Structure
highlight default link ccslKind Type
highlight default link ccslChoice Conditional
highlight default link ccslRelation Statement
highlight default link ccslOperator Operator
highlight default link ccslConstant Constant
highlight default link ccslReserved Error

let b:current_syntax = "ccsl"
