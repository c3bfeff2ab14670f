" Vim syntax file
" Language: session-typed scripts of EPass (*.ep)

if exists("b:current_syntax")
  finish
endif

syntax case match

" Of items that match at one place the one defined last wins: what opens no token comes first, and the names that are too long come last.
syntax match epassFault /[^ \t\r]/

syntax match epassDelimiter /[][(){},;|]/
syntax match epassOperator /=>\=\|<-\|[+&]/
syntax match epassUnit /1/

" After a colon or an infix mark stands a type, and before an infix mark too: these marks have no other use.
syntax match epassDelimiter /:/ skipwhite skipempty nextgroup=epassTypeName,@epassNoName
syntax match epassOperator /[*@]\|-o/ skipwhite skipempty nextgroup=epassTypeName,@epassNoName
syntax match epassChannel /\a\w*/
syntax match epassTypeName /\a\w*\ze\s*\%([*@]\|-o\)/
syntax match epassTypeName /\a\w*/ contained
syntax match epassProcName /\a\w*/ contained
syntax match epassLabel /'\a\w*/

syntax match epassDeclare /type\w\@!/ skipwhite skipempty nextgroup=epassTypeName,@epassNoName
syntax match epassDeclare /\%(proc\|exec\)\w\@!/ skipwhite skipempty nextgroup=epassProcName,@epassNoName
syntax match epassTerm /call\w\@!/ skipwhite skipempty nextgroup=epassProcName,@epassNoName
syntax match epassTerm /\%(send\|recv\|fwd\|cancel\)\w\@!/
syntax match epassException /\%(raise\|try\|catch\)\w\@!/

" A name, a label's too, has at most 32 bytes.
syntax match epassTooLong /'\=\a\w\{32,}/

" What may stand where a name is awaited and looks like one.
syntax cluster epassNoName contains=epassDeclare,epassTerm,epassException,epassTooLong

" The name may stand lines below its word or mark; a text has at most 8,192 bytes, so all of it can be read.
syntax sync fromstart

" Channels stay plain: they are most of the names.
highlight default link epassDeclare Keyword
highlight default link epassTerm Statement
highlight default link epassException Exception
highlight default link epassTypeName Type
highlight default link epassUnit Type
highlight default link epassProcName Function
highlight default link epassLabel Constant
highlight default link epassOperator Operator
highlight default link epassDelimiter Delimiter
highlight default link epassFault Error
highlight default link epassTooLong Error

let b:current_syntax = "epass"
