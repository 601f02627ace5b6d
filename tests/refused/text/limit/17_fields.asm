; A class has 16 fields at most.
;
; $ x10p asm 17_fields.asm 17_fields.x10
; status 1: asm: line 6 Limit
places 1
class int int int int int int int int int int int int int int int int int
