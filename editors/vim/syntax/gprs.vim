" Batches of gprs (.gp): words, data variables, numbers, texts and comments.
if exists('b:current_syntax')
  finish
endif

syntax keyword gprsHead record feed by from task var
syntax keyword gprsControl while if else when
syntax keyword gprsSync lock unlock barrier fork join into settle
syntax keyword gprsData read write print
syntax keyword gprsOperator and or not
syntax keyword gprsValue self rows

" A data variable, also one whose name is a word of the language after the $.
syntax match gprsRegister /\$\h\w*/
syntax match gprsNumber /\<\d\+\>/
syntax region gprsText start=/"/ end=/"/ oneline
syntax match gprsComment /#.*$/ contains=@Spell

highlight default link gprsHead Structure
highlight default link gprsControl Conditional
highlight default link gprsSync Keyword
highlight default link gprsData Statement
highlight default link gprsOperator Operator
highlight default link gprsValue Constant
highlight default link gprsRegister Identifier
highlight default link gprsNumber Number
highlight default link gprsText String
highlight default link gprsComment Comment

setlocal commentstring=#\ %s
let b:current_syntax = 'gprs'
