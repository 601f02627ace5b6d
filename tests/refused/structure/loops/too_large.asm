; With one instruction more in the first loop too, the bound is above 2^48.
;
; $ x10p bounds too_large.x10
; status 1: verify: Structure TooLarge 0 0
; $ x10p verify too_large.x10
; status 1: verify: Structure TooLarge 0 0
places 1
int 0
func 1 3 none
LOOP 0 65535
INTK 0 0
LOOP 1 65535
INTK 0 0
LOOP 2 65535
ENDL 2 5
ENDL 1 3
ENDL 0 1
RET 0
end
entry 0
