; A turn isn't continued from inside an atomic region: its ENDL is outside.
;
; $ x10p bounds endl_from_inside.x10
; status 1: verify: Structure Jump 0 3
; $ x10p verify endl_from_inside.x10
; status 1: verify: Structure Jump 0 3
version 2
places 1
int 0
func 1 1 none
INTK 0 0
LOOP 0 2
ATOMB
JZ 0 5
ATOME
ENDL 0 2
RET 0
end
entry 0
