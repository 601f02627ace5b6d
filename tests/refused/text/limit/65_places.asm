; A module asks for 64 places at most.
;
; $ x10p asm 65_places.asm 65_places.x10
; status 1: asm: line 5 Limit
places 65
