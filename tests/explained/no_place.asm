; A module for no place.
;
; $ x10p asm --explain no_place.asm no_place.x10
; status 1: asm: line 8 Limit
; > no_place.asm:8:8: Limit: places 0
; >                                 ^
; > A module asks for 1 to 64 places.
places 0
func 1 0 none
RET 0
end
entry 0
