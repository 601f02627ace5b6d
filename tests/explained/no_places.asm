; A text that doesn't begin with its places.
;
; $ x10p asm --explain no_places.asm no_places.x10
; status 1: asm: line 8 Order
; > no_places.asm:8:1: Order: int 7
; >                           ^^^
; > A text begins with a line `places N`.
int 7
places 1
func 1 0 none
INTK 0 0
RET 0
end
entry 0
