; With one instruction more in the second loop the bound is still below 2^48, 281474976710656.
;
; $ x10p bounds greatest_bound.x10
; 0 281474976645122
; $ x10p run greatest_bound.x10
; status 2: limit
places 1
int 0
func 1 3 none
LOOP 0 65535
LOOP 1 65535
INTK 0 0
LOOP 2 65535
ENDL 2 4
ENDL 1 2
ENDL 0 1
RET 0
end
entry 0
