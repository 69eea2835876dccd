" Made by tools/editors/make.py: not to be edited.
if exists("b:current_syntax") | finish | endif
syn keyword paleStatement skip if else while split assert free call keep new
syn keyword paleType type bool data pointer set
syn keyword paleStructure pred proc returns logic pre post
syn keyword paleOperator ex all in sub root
syn keyword paleConstant null true false
syn match paleComment "#.*$"
syn match paleMark "[=!~&|<>^$@?*+]"
hi def link paleStatement Statement
hi def link paleType Type
hi def link paleStructure Structure
hi def link paleOperator Operator
hi def link paleConstant Constant
hi def link paleComment Comment
hi def link paleMark Operator
let b:current_syntax = "pale"
