; Counts down from 3 in a loop of 100 turns, which it leaves at 0; then prints 1 in a loop of the same
; slot, twice: a slot that was left early begins anew.
;
; canonical
;
; $ x10p bounds slot_used_again.x10
; 0 409
; $ x10p run slot_used_again.x10
; 0: 3
; 0: 2
; 0: 1
; 0: 1
; 0: 1
; takes 20 events
places 1
int 3
int 1
func 2 1 none
INTK 0 0
INTK 1 1
LOOP 0 100
PRINT 0
SUB 0 0 1
JZ 0 7
ENDL 0 3
LOOP 0 2
PRINT 1
ENDL 0 8
RET 0
end
entry 0
