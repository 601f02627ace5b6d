; A space that is another character than the plain one.
;
; $ x10p asm --explain wide_space.asm wide_space.x10
; status 1: asm: line 11 Word
; > wide_space.asm:11:1: Word: INTK 0 0
; >                            ^^^^^^
; > Words are separated by plain spaces; the white space here is another character.
places 1
int 7
func 1 0 none
INTK{{U+00A0}}0 0
RET 0
end
entry 0
