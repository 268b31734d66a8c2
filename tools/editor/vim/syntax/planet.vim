" The syntax of the files of lines of planet, whose first line says of what kind they are, by scripts/pages/editor
if exists('b:current_syntax')
  finish
endif
syn case match

syn include @planProgram syntax/plan.vim
unlet! b:current_syntax

syn match planEscape contained /\\\%([ntr"'\\]\|x[0-7]\x\)/
syn region planString start=/"/ end=/"/ oneline contains=planEscape
syn match planChar /'\%(\\[ntr"'\\]\|\\x[0-7]\x\|[^\\']\)'/
syn match planBlob /#"\x*"/
syn match planNumber /\~\=\<\d\+\>/
syn match planHost /@\d\+\>/
syn match planDevice /%\d\+\>/
syn match planPart /#[1-8]\>/

let s:kind = matchstr(getline(1), '^planet \zs[a-z]\+ [12]\ze$')
if s:kind !=# 'trace 1'
  syn match planetWrong /^[^ #]\S*/
  syn match planetWrong / $\|\t\|\r/
endif
if s:kind ==# 'trace 1'
  syn match planetInner / \zs\%(trace\|bound\|control\|evals\|left\|advert\|now\|granted\|hops\|live\|net\|resident\|host\|NoBound\|NoService\|NoRoute\|QueueFull\|LinkSpent\|Repeated\|TooOld\|BadFrame\|SerialsSpent\|NoMemory\|TooLong\|BadMagic\|BadVersion\|BadKind\|BoundTooLarge\|Misplaced\|Truncated\|BadTag\|BadName\|BadUtf8\|BadOrder\|Trailing\|OverLimit\|functions\|services\|exceptions\|parameters\|arguments\|parts\|clauses\|items\|nodes\|depth\|type\|nesting\|code\|weight\|hosts\|cost\|IllTyped\|Code\|Entry\|Count\|Handler\|Argument\)\ze\%( \|$\)/
  syn match planetEvent /^\d\+\ze /
  syn match planetWord /\%(^\d\+ \)\@<=\%(inject\|forged\|arrive\|print\|port\|value\|raised\|spent\|handler\|queue\|drop\|tick\|advert\|heard\|send\|wire\|off\|again\|lost\|nothing\)\ze\%( \|$\)/
  syn match planetWord /^\%(ledger\|end\)$/
  syn match planetFamily /\%(^\| \)\zs\d\+\.\d\+\ze\%( \|$\)/
elseif s:kind ==# 'schedule 1'
  syn match planetWord /^\%(host\|link\|program\|frames\|events\|inject\|send\|deliver\|lose\|tick\|raw\)\ze\%( \|$\)/
  syn match planetInner / \zs\%(without\|net\|resident\|host\)\ze\%( \|$\)/
elseif s:kind ==# 'schedule 2'
  syn match planetWord /^\%(host\|link\|program\|frames\|events\|inject\|send\|deliver\|lose\|repeat\|tick\|raw\)\ze\%( \|$\)/
  syn match planetInner / \zs\%(without\|net\|resident\|host\|handler\)\ze\%( \|$\)/
elseif s:kind ==# 'node 1'
  syn match planetWord /^\%(host\|hosts\|port\|control\|period\|log\|dev\|without\|program\|at\)\ze\%( \|$\)/
  syn match planetInner / \zs\%(net\|resident\|host\|inject\)\ze\%( \|$\)/
elseif s:kind ==# 'node 2'
  syn match planetWord /^\%(host\|hosts\|port\|control\|period\|log\|dev\|without\|program\|at\)\ze\%( \|$\)/
  syn match planetInner / \zs\%(net\|resident\|host\|inject\|handler\)\ze\%( \|$\)/
elseif s:kind ==# 'inject 1'
  syn match planetWord /^\%(to\|from\|bound\|entry\|program\)\ze\%( \|$\)/
elseif s:kind ==# 'fleet 1'
  syn match planetWord /^\%(node\|ask\)\ze\%( \|$\)/
elseif s:kind ==# 'log 1'
  syn match planetWord /^\%(host\|hosts\|dev\|without\|events\|inject\|frame\|control\|tick\|take\|lost\)\ze\%( \|$\)/
  syn match planetInner / \zs\%(net\|resident\|host\)\ze\%( \|$\)/
elseif s:kind ==# 'log 2'
  syn match planetWord /^\%(host\|boot\|hosts\|dev\|without\|events\|inject\|frame\|control\|tick\|take\|lost\)\ze\%( \|$\)/
  syn match planetInner / \zs\%(net\|resident\|host\|handler\)\ze\%( \|$\)/
elseif s:kind ==# 'cut 1'
  syn match planetWord /^\%(dest\|port\|key\|bound\|data\)\ze\%( \|$\)/
elseif s:kind ==# 'port 1'
  syn match planetWord /^\%(bound\|events\|offer\|transmit\|send\|deliver\|lose\|repeat\)\ze\%( \|$\)/
elseif s:kind ==# 'audit 1'
  syn match planetWord /^\%(log\|link\)\ze\%( \|$\)/
endif
syn match planetHeader /\%1l^planet [a-z]\+ [12]$/
syn match planetComment /^#.*/
syn match planetHex / \zs\%(\x\x\)\{4,}\ze\%( \|$\)/
syn region planetProgram matchgroup=planetWord start=/^program\%( \w\+\)\=$/ end=/^end program$/ keepend contains=@planProgram
syn sync match planetSync grouphere planetProgram /^program\%( \w\+\)\=$/
syn sync match planetSync grouphere NONE /^end program$/

hi def link planEscape SpecialChar
hi def link planString String
hi def link planChar Character
hi def link planBlob String
hi def link planNumber Number
hi def link planHost Constant
hi def link planDevice Constant
hi def link planPart Constant
hi def link planetHeader PreProc
hi def link planetComment Comment
hi def link planetWord Statement
hi def link planetInner Type
hi def link planetHex String
hi def link planetEvent LineNr
hi def link planetFamily Identifier
hi def link planetWrong Error

let b:current_syntax = 'planet'
