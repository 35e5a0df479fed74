" What Vim and Neovim highlight in PL/0 programs, which have neither comments nor texts in quotes.
if exists("b:current_syntax")
  finish
endif

syntax case match
syntax keyword pl0Declaration const var
syntax keyword pl0Declaration procedure nextgroup=pl0Procedure skipwhite skipempty
syntax keyword pl0Statement begin end
syntax keyword pl0Statement call nextgroup=pl0Procedure skipwhite skipempty
syntax keyword pl0Condition if then
syntax keyword pl0Loop while do
syntax keyword pl0Operator odd
syntax match pl0Procedure "\a[[:alnum:]]*" contained
syntax match pl0Number "\<\d\+\>"
syntax match pl0Operator "[-+*/=#<>]\|:=\|<=\|>="
syntax match pl0Write "!"

highlight default link pl0Declaration Keyword
highlight default link pl0Statement Statement
highlight default link pl0Condition Conditional
highlight default link pl0Loop Repeat
highlight default link pl0Operator Operator
highlight default link pl0Procedure Function
highlight default link pl0Number Number
highlight default link pl0Write Special

let b:current_syntax = "pl0"
