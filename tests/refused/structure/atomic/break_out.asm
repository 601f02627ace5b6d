; A loop inside an atomic region may be left, but not the region with it.
;
; $ x10p bounds break_out.x10
; status 1: verify: Structure Jump 0 4
; $ x10p verify break_out.x10
; status 1: verify: Structure Jump 0 4
version 2
places 1
int 0
func 1 1 none
INTK 0 0
ATOMB
LOOP 0 2
JZ 0 5
JZ 0 7
ENDL 0 3
ATOME
RET 0
end
entry 0
