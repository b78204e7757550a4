" Vim syntax of litmus tests, as docs/tests.md has the language.
if exists('b:current_syntax')
  finish
endif
syntax keyword litmusItem Litmus Litmus2 Microop Relationship Init Final
syntax keyword litmusExpectation Permitted Forbidden
syntax keyword litmusAccess Read Write Fence
syntax keyword litmusPart VA PA Data Entry Maps Any
syntax match litmusArrow "->"
syntax match litmusNumber "\<\d\+\>"
syntax region litmusText start=+"+ end=+"+ oneline
syntax match litmusComment "%.*$" contains=litmusNote
syntax match litmusComment "//.*$"
syntax region litmusComment start="(\*" end="\*)"
syntax match litmusNote "Lint allows:" contained
highlight default link litmusItem Keyword
highlight default link litmusExpectation Constant
highlight default link litmusAccess Type
highlight default link litmusPart Identifier
highlight default link litmusArrow Operator
highlight default link litmusNumber Number
highlight default link litmusText String
highlight default link litmusComment Comment
highlight default link litmusNote SpecialComment
let b:current_syntax = 'litmustest'
