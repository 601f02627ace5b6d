; `version` stands once.
;
; $ x10p asm version_twice.asm version.x10
; status 1: asm: line 6 Order
version 2
version 2
