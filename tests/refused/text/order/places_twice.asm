; `places` stands once.
;
; $ x10p asm places_twice.asm places_twice.x10
; status 1: asm: line 6 Order
places 1
places 1
