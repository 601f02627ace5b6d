; `version` stands before `places`.
;
; $ x10p asm version_after_places.asm version.x10
; status 1: asm: line 6 Order
places 1
version 2
