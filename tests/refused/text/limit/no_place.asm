; A module asks for one place at least.
;
; $ x10p asm no_place.asm no_place.x10
; status 1: asm: line 5 Limit
places 0
