" Programs of hept; made by tools/make-files.
if exists('b:current_syntax')
  finish
endif
syntax keyword heptKeyword assume automaton continue contract do else end enforce every if in let node reset returns state switch tel then type unless until var with
syntax keyword heptOperator fby inlined last merge not on or pre when whenot xor
syntax keyword heptType bool int
syntax keyword heptValue false true
syntax match heptConstructor /\<[A-Z]\w*\>/
syntax match heptNumber /\<\d\+\>/
syntax match heptNode /\(\<node\s\+\)\@<=[a-z]\w*/
syntax region heptComment start=/(\*/ end=/\*)/ contains=heptComment
highlight default link heptKeyword Statement
highlight default link heptOperator Operator
highlight default link heptType Type
highlight default link heptValue Boolean
highlight default link heptConstructor Constant
highlight default link heptNumber Number
highlight default link heptNode Function
highlight default link heptComment Comment
let b:current_syntax = 'hept'
