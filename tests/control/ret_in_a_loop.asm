; A RET in a loop ends the function in its first turn. The bound counts all turns.
;
; canonical
;
; $ x10p bounds ret_in_a_loop.x10
; 0 6
; $ x10p run ret_in_a_loop.x10
; takes 2 events
places 1
func 1 1 none
LOOP 0 2
RET 0
ENDL 0 1
RET 0
end
entry 0
