; A field whose home is to be here.
;
; $ x10p asm --explain here_in_a_class.asm here_in_a_class.x10
; status 1: asm: line 9 Word
; > here_in_a_class.asm:9:7: Word: class here:0
; >                                      ^^^^^^
; > `here:0` is for parameters and results alone; the kind of a field is gref.
places 1
class here:0
func 1 0 none
RET 0
end
entry 0
