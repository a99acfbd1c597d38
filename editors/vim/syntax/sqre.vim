" Colors for queries of sqre. A word is what it is by its place, so most are told by the bracket after them.
if exists('b:current_syntax')
  finish
endif
syntax match sqreName "\<\h\w*\>"
syntax match sqreNumber "[+-]\?\<\d\+\>"
syntax match sqreFile "\<\%(stream\|let\|main\|def\|include\)\ze\_s*("
syntax match sqreColumn "\<\%(col\|fixed\)\ze\_s*("
syntax match sqreColumn "\%((\_s*\)\@<=\<\%(plain\|header\)\>"
syntax match sqreColumn "\<\%(int\|text\)\ze\_s*)"
syntax match sqreQuery "\<\%(atom\|eps\|or\|split\|iter\|combine\|apply\|compose\|collect\|key\)\ze\_s*("
syntax match sqreRate "\<\%(item\|seq\|alt\|star\)\ze\_s*("
syntax match sqrePredicate "\<\%(eq\|ne\|lt\|le\|gt\|ge\|between\|isnum\|and\|not\)\ze\_s*("
syntax match sqrePredicate "\<any\>"
syntax match sqreOperator "\<\%(neg\|abs\|add\|sub\|mul\|div\|rem\|min\|max\|if\|tsum\|tcount\|tmax\|tmin\|tget\|rec\|part\)\ze\_s*("
syntax match sqreValue "\<\%(x\|y\|value\)\>"
syntax region sqreString start=+"+ skip=+\\.+ end=+"+ oneline
syntax match sqreComment "#.*$"

highlight default link sqreNumber Number
highlight default link sqreFile Keyword
highlight default link sqreColumn Type
highlight default link sqreQuery Statement
highlight default link sqreRate Statement
highlight default link sqrePredicate Conditional
highlight default link sqreOperator Function
highlight default link sqreValue Identifier
highlight default link sqreString String
highlight default link sqreComment Comment
let b:current_syntax = 'sqre'
