" Vim syntax file for the assembler text of x10p.
" Written by editors/make from the table of operations; change that, not this.
if exists("b:current_syntax")
  finish
endif
syn case match

" a line that nothing below matches keeps its plain color, so a misspelt name stands out
syn match x10asmLine "^ *\%(version\|places\|class\|int\|text\|func\|end\|entry\)\>"
syn match x10asmJump "^ *\%(DIV\|REM\|JMP\|JZ\|ENDL\|PLACEN\|IFHERE\|IFSAME\|IFOBJ\|RAIL\|RGET\|RSET\|TCAT\)\>"
syn match x10asmActivity "^ *\%(ASYNC\|AT\|ATA\|FINB\|FINE\|ATOMB\|ATOME\)\>"
syn match x10asmInstruction "^ *\%(INTK\|TEXTK\|MOVE\|ADD\|SUB\|MUL\|LT\|EQ\|LOOP\|PRINT\|HERE\|PLACEK\|PLACEI\|NEXTP\|COUNT\|HOME\|GNEW\|GOPEN\|NEW\|GET\|PUT\|NULL\|RLEN\|TLEN\|CALL\|RET\)\>"
syn match x10asmKind " \zs\%(int\|place\|text\|rail\|none\|\%(obj\|opt\|gref\|here\):[0-9]\+\)\ze\%( \|$\)"
syn match x10asmNumber " \zs-\?[0-9]\+\ze\%( \|$\)"
syn match x10asmLabel "^ *[A-Za-z_][A-Za-z0-9_]\{0,31}:\ze *$"
syn match x10asmTarget "@[A-Za-z_][A-Za-z0-9_]\{0,31}\>"
" a comment has a line of its own, and a tab is no space
syn match x10asmWrong ";.*$\|\t"
syn match x10asmComment "^ *;.*$"
syn match x10asmEscape contained +\\["\\n]+
syn region x10asmText start=+"+ skip=+\\.+ end=+"+ oneline contains=x10asmEscape

hi def link x10asmLine Keyword
hi def link x10asmJump Conditional
hi def link x10asmActivity Special
hi def link x10asmInstruction Statement
hi def link x10asmKind Type
hi def link x10asmNumber Number
hi def link x10asmLabel Label
hi def link x10asmTarget Label
hi def link x10asmWrong Error
hi def link x10asmComment Comment
hi def link x10asmEscape SpecialChar
hi def link x10asmText String

let b:current_syntax = "x10asm"
