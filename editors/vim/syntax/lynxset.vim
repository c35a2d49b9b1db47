" Sets of Lynx. A line that fits no form of docs/FORMATS.md is shown as an error; where it stands isn't looked at.
if exists('b:current_syntax')
  finish
endif
syntax case match

syntax match lynxError /^.*$/
syntax match lynxHead /^lynx [12]$/ contains=lynxKeyword,lynxNumber
syntax match lynxHead /^servers \d\+$/ contains=lynxKeyword,lynxNumber
syntax match lynxHead /^shard \d\+ \d\+ \d\+$/ contains=lynxKeyword,lynxNumber
syntax match lynxHead /^hop \d\+$/ contains=lynxKeyword,lynxNumber
syntax match lynxHead /^end$/ contains=lynxKeyword
syntax match lynxHead /^table \l[a-z0-9_]*$/ contains=lynxKeyword,lynxTableName
syntax match lynxHead /^program \l[a-z0-9_]*\( \l[a-z0-9_]*\)\{,8}$/ contains=lynxKeyword,lynxProgramName,lynxParameter
syntax match lynxHead /^range \l[a-z0-9_]* \d\+\.\.\d\+$/ contains=lynxKeyword,lynxRanged,lynxNumber,lynxInterval
syntax match lynxLine /^get \l[a-z0-9_]* \l[a-z0-9_]* \(\d\+\|\l[a-z0-9_]*\)$/ contains=lynxAction,lynxBound,lynxRead,lynxNumber
syntax match lynxLine /^\(set\|add\|sub\|max\) \l[a-z0-9_]*\( \(\d\+\|\l[a-z0-9_]*\)\)\{2}$/ contains=lynxAction,lynxWritten,lynxNumber
syntax match lynxLine /^let \l[a-z0-9_]* \(\d\+\|\l[a-z0-9_]*\) [-+] \(\d\+\|\l[a-z0-9_]*\)$/ contains=lynxAction,lynxBound,lynxNumber,lynxOperator
syntax match lynxLine /^need \(\d\+\|\l[a-z0-9_]*\) \([<>]=\?\|!\?=\) \(\d\+\|\l[a-z0-9_]*\)$/ contains=lynxAction,lynxNumber,lynxOperator

syntax match lynxKeyword /^\l\+/ contained
syntax match lynxAction /^\l\+/ contained
syntax match lynxNumber / \@1<=\d\+\|\.\@1<=\d\+/ contained
syntax match lynxInterval /\.\./ contained
syntax match lynxOperator / \@1<=[-+<>=!]\+ \@=/ contained
syntax match lynxParameter / \@1<=\l[a-z0-9_]*/ contained
syntax match lynxTableName /\(^table \)\@6<=\S\+/ contained
syntax match lynxProgramName /\(^program \)\@8<=\S\+/ contained
syntax match lynxRanged /\(^range \)\@6<=\S\+/ contained
syntax match lynxBound /\(^[gl]et \)\@4<=\S\+/ contained
syntax match lynxRead /\(^get \S\+ \)\@<=\S\+/ contained
syntax match lynxWritten /\(^\(set\|add\|sub\|max\) \)\@4<=\S\+/ contained

highlight default link lynxError Error
highlight default link lynxKeyword Keyword
highlight default link lynxAction Statement
highlight default link lynxNumber Number
highlight default link lynxInterval Operator
highlight default link lynxOperator Operator
highlight default link lynxParameter Identifier
highlight default link lynxRanged Identifier
highlight default link lynxBound Identifier
highlight default link lynxTableName Type
highlight default link lynxRead Type
highlight default link lynxWritten Type
highlight default link lynxProgramName Function

let b:current_syntax = 'lynxset'
