; More fields than a class may have.
;
; $ x10p asm --explain too_many_fields.asm too_many_fields.x10
; status 1: asm: line 9 Limit
; > too_many_fields.asm:9:71: Limit: class int int int int int int int int int int int int int int int int int
; >                                                                                                        ^^^
; > A class has 16 fields at most.
places 1
class{{17 *  int}}
func 1 0 none
RET 0
end
entry 0
