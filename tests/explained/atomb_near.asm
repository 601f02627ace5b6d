; ATOMB with another letter, and in small letters.
;
; $ x10p check atomb_near.asm
; Word, line 14: ATOMIC
;                ^^^^^^
; `ATOMIC` isn't an instruction. Did you mean ATOMB?
; Word, line 15: atome
;                ^^^^^
; The names of instructions are in capitals: ATOME.
; status 1: asm: line 14 Word
version 2
places 1
func 1 0 none
ATOMIC
atome
RET 0
end
entry 0
