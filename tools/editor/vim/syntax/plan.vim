" The syntax of programs in PLAN, by scripts/pages/editor
if exists('b:current_syntax')
  finish
endif
syn case match

syn match planEscape contained /\\\%([ntr"'\\]\|x[0-7]\x\)/
syn region planString start=/"/ end=/"/ oneline contains=planEscape
syn match planChar /'\%(\\[ntr"'\\]\|\\x[0-7]\x\|[^\\']\)'/
syn match planBlob /#"\x*"/
syn match planNumber /\~\=\<\d\+\>/
syn match planHost /@\d\+\>/
syn match planDevice /%\d\+\>/
syn match planPart /#[1-8]\>/

syn keyword planDeclaration exception fun svc val
syn keyword planControl if then else let in end try handle raise
syn keyword planOperator and or not mod
syn keyword planForm eval foldl foldr OnNeighbor OnRemote
syn keyword planType blob bool char chunk dev host int list string unit
syn keyword planConstant true false
syn keyword planPrimitive hd tl length intToString hostToString stringToBlob blobLength blobPart
syn keyword planService thisHost thisHostIs getRB getSource getNeighbors getDist nextHop put get remove generateKey print deliver
syn keyword planExceptions Overflow DivByZero Empty BadIndex TooLarge NoBound NoService NoRoute NotNeighbor TableFull NotFound
syn match planName /\%(\<\%(fun\|svc\|exception\)\s\+\)\@<=\h\w*/
syn match planChunk /|\s*\h\w*\s*|/
syn match planSign /::\|->\|=>\|<>\|<=\|>=\|[-=<>+*\/^]/
syn region planComment start=/(\*/ end=/\*)/ contains=planComment,planTodo
syn keyword planTodo contained TODO FIXME XXX
syn sync fromstart

hi def link planDeclaration Keyword
hi def link planControl Conditional
hi def link planOperator Operator
hi def link planForm Special
hi def link planType Type
hi def link planConstant Boolean
hi def link planPrimitive Function
hi def link planService Function
hi def link planExceptions Exception
hi def link planEscape SpecialChar
hi def link planString String
hi def link planChar Character
hi def link planBlob String
hi def link planNumber Number
hi def link planHost Constant
hi def link planDevice Constant
hi def link planPart Constant
hi def link planName Identifier
hi def link planChunk Identifier
hi def link planSign Operator
hi def link planComment Comment
hi def link planTodo Todo

let b:current_syntax = 'plan'
