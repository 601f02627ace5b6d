; The line `version 2` comes too late to give a text an ATOMB: the first fault is that line's.
;
; $ x10p asm atomb_before_version.asm it.x10
; status 1: asm: line 6 Order
places 1
version 2
func 1 0 none
ATOMB
ATOME
RET 0
end
entry 0
