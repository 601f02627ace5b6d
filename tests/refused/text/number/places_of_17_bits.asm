; 65536 doesn't go into the field of `places`.
;
; $ x10p asm places_of_17_bits.asm places_of_17_bits.x10
; status 1: asm: line 5 Number
places 65536
