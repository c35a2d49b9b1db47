" Scripts of Lynx. A line that fits no form of docs/FORMATS.md is shown as an error.
if exists('b:current_syntax')
  finish
endif
syntax case match

syntax match lynxError /^.*$/
syntax match lynxEvent /^begin \d\+ \d\+ \d\+ \l[a-z0-9_]*\( \d\+\)\{,8}$/ contains=lynxAction,lynxNumber,lynxProgramName
syntax match lynxEvent /^\(deliver\|lose\) \d\+:\d\+ \d\+$/ contains=lynxAction,lynxNumber,lynxChain
syntax match lynxEvent /^\(wake\|restart\) \d\+$/ contains=lynxAction,lynxNumber

syntax match lynxAction /^\l\+/ contained
syntax match lynxNumber / \@1<=\d\+/ contained
syntax match lynxChain / \@1<=\d\+:\d\+/ contained
syntax match lynxProgramName / \@1<=\l[a-z0-9_]*/ contained

highlight default link lynxError Error
highlight default link lynxAction Statement
highlight default link lynxNumber Number
highlight default link lynxChain Constant
highlight default link lynxProgramName Function

let b:current_syntax = 'lynxscript'
