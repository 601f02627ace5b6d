; The name of an instruction in small letters.
;
; $ x10p asm --explain small_letters.asm small_letters.x10
; status 1: asm: line 11 Word
; > small_letters.asm:11:1: Word: intk 0 0
; >                               ^^^^
; > The names of instructions are in capitals: INTK.
places 1
int 7
func 1 0 none
intk 0 0
PRINT 0
RET 0
end
entry 0
