" Vim syntax file for X10 sources, of the subset that x10c compiles (docs/X10-SUBSET.md).
if exists("b:current_syntax")
  finish
endif
syn case match

syn keyword x10Declaration class def val var static public private protected final
syn keyword x10Control if else for while in break continue return new
syn keyword x10Activity async finish at atomic here
syn keyword x10Constant true false null
syn keyword x10Type Int Boolean String Place Rail Byte GlobalRef void
" words of X10 that the subset doesn't have
syn keyword x10Outside when clocked try catch throw throws import package interface extends implements this super do switch struct
syn keyword x10Outside ateach native instanceof as resume offer offers operator property abstract
syn match x10Bound "@bound\>"
syn match x10Number "\<\%(0[xX][0-9a-fA-F]\+\|[0-9]\+\)\>"
syn match x10Escape contained +\\[nt"\\]+
syn region x10Text start=+"+ skip=+\\.+ end=+"+ oneline contains=x10Escape
syn match x10Comment "//.*$"
syn region x10Comment start="/\*" end="\*/"

hi def link x10Declaration Keyword
hi def link x10Control Conditional
hi def link x10Activity Special
hi def link x10Constant Constant
hi def link x10Type Type
hi def link x10Outside Error
hi def link x10Bound PreProc
hi def link x10Number Number
hi def link x10Text String
hi def link x10Escape SpecialChar
hi def link x10Comment Comment

let b:current_syntax = "x10"
