; The name of an instruction, misspelt: the nearest is named.
;
; $ x10p asm --explain name_misspelt.asm name_misspelt.x10
; status 1: asm: line 12 Word
; > name_misspelt.asm:12:1: Word: PRNT 0
; >                               ^^^^
; > `PRNT` isn't an instruction. Did you mean PRINT?
places 1
int 7
func 1 0 none
INTK 0 0
PRNT 0
RET 0
end
entry 0
