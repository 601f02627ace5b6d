; An end too many.
;
; $ x10p asm --explain end_twice.asm end_twice.x10
; status 1: asm: line 12 Order
; > end_twice.asm:12:1: Order: end
; >                            ^^^
; > This `end` ends no function: the last one ended in line 11.
places 1
func 1 0 none
RET 0
end
end
entry 0
