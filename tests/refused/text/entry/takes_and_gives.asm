; The entry function has no parameter and no result.
;
; $ x10p asm takes_and_gives.asm takes_and_gives.x10
; status 1: asm: line 9 Entry
places 1
func 1 0 int int
RET 0
end
entry 0
