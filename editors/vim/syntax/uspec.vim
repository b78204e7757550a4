" Vim syntax of µspec models, as docs/language.md has the language.
if exists('b:current_syntax')
  finish
endif
syntax keyword uspecItem StageName Axiom DefineMacro ExpandMacro
syntax keyword uspecQuantifier forall exists microop microops core cores
syntax keyword uspecOrder AddEdge AddEdges EdgeExists EdgesExist NodeExists NodesExist
syntax keyword uspecPredicate IsAnyRead IsAnyWrite IsAnyFence AccessType OnCore SameCore SameThread SameMicroop
syntax keyword uspecPredicate SameInstruction SameIntra ProgramOrder SameVirtualAddress SamePhysicalAddress
syntax keyword uspecPredicate SameVirtualTag SamePhysicalTag SameIndex SameData DataFromInitialStateAtPA
syntax keyword uspecPredicate DataFromFinalStateAtPA HasDependency
syntax keyword uspecPredicate EntryOf MapsTagOf MarkedAccessed MarkedDirty
syntax keyword uspecConstant True False
syntax match uspecConnective "/\\\|\\/\|=>\|\~"
syntax match uspecNumber "\<\d\+\>"
syntax region uspecText start=+"+ end=+"+ oneline
syntax match uspecComment "%.*$" contains=uspecNote
syntax match uspecComment "//.*$"
syntax region uspecComment start="(\*" end="\*)"
syntax match uspecNote "Memory model:\|Lint allows:" contained
highlight default link uspecItem Keyword
highlight default link uspecQuantifier Statement
highlight default link uspecOrder Function
highlight default link uspecPredicate Type
highlight default link uspecConstant Boolean
highlight default link uspecConnective Operator
highlight default link uspecNumber Number
highlight default link uspecText String
highlight default link uspecComment Comment
highlight default link uspecNote SpecialComment
let b:current_syntax = 'uspec'
