; A name that goes on after an instruction's.
;
; $ x10p asm --explain name_too_long.asm name_too_long.x10
; status 1: asm: line 12 Word
; > name_too_long.asm:12:1: Word: PRINTS 0
; >                               ^^^^^^
; > `PRINTS` isn't an instruction. Did you mean PRINT?
places 1
int 7
func 1 0 none
INTK 0 0
PRINTS 0
RET 0
end
entry 0
