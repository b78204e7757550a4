" Vim syntax of herd's listings for X86 and X86_64, as docs/tests.md has what is read of them.
if exists('b:current_syntax')
  finish
endif
syntax match litmusHeader "\%^X86.*$"
syntax keyword litmusInstruction MOV MFENCE XCHG LOCK mov movl movq mfence xchg xchgl xchgq lock
syntax keyword litmusCondition exists forall locations
syntax match litmusColumn "\<P\d\+\>"
syntax match litmusNumber "\$\?\<\d\+\>"
syntax region litmusComment start="(\*" end="\*)"
highlight default link litmusHeader Title
highlight default link litmusInstruction Type
highlight default link litmusCondition Keyword
highlight default link litmusColumn Identifier
highlight default link litmusNumber Number
highlight default link litmusComment Comment
let b:current_syntax = 'litmus'
