" Vim syntax file
" Language: Sapper, versions 1 and 2

if exists("b:current_syntax")
  finish
endif

syntax case match

syntax keyword sapperDeclaration input reg mem state
syntax keyword sapperKind dynamic enforced under
syntax keyword sapperCommand if else goto fall setTag otherwise
syntax keyword sapperFunction tag level join zext
" `then` and `case` are names in a text of version 1.
if join(getline(1, 100), "\n") =~# '^\%(\_s\|//[^\n]*\n\)*sapper\%(\_s\|//[^\n]*\n\)\+2\>'
  syntax keyword sapperCommand then case
  syntax match sapperVersion "\<sapper\ze\_s\+2\_s*;"
endif

syntax match sapperName "\<\h\w*\>" contains=sapperDeclaration,sapperKind,sapperCommand,sapperFunction,sapperVersion transparent
syntax match sapperNumber "\<\d\+\>"
syntax match sapperNumber "\<\d\+'d\d\+\>"
syntax match sapperNumber "\<\d\+'h\x\+\>"
syntax match sapperOperator ":=\|==\|!=\|<=\|<<\|>>\|[?=<+*&|^~-]"
syntax match sapperComment "//.*$"

highlight default link sapperDeclaration Type
highlight default link sapperKind StorageClass
highlight default link sapperCommand Statement
highlight default link sapperFunction Function
highlight default link sapperVersion PreProc
highlight default link sapperNumber Number
highlight default link sapperOperator Operator
highlight default link sapperComment Comment

let b:current_syntax = "sapper"
