; A kind of objects without its class.
;
; $ x10p asm --explain kind_without_its_class.asm kind_without_its_class.x10
; status 1: asm: line 10 Word
; > kind_without_its_class.asm:10:15: Word: func 1 0 none obj
; >                                                       ^^^
; > `obj` lacks its class, as in obj:0.
places 1
class int
func 1 0 none obj
RET 0
end
func 1 0 none
RET 0
end
entry 1
