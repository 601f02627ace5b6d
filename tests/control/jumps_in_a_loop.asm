; A jump from a loop to the instruction behind it leaves it, and one to its ENDL ends a turn: function 0 jumps once,
; function 1 twice. Both have the same bound.
;
; canonical
;
; $ x10p bounds jumps_in_a_loop.x10
; 0 6
; 1 6
; 2 15
; $ x10p run jumps_in_a_loop.x10
; takes 12 events
places 1
func 1 1 none
LOOP 0 2
JMP 3
ENDL 0 1
RET 0
end
func 1 1 none
LOOP 0 2
JMP 2
ENDL 0 1
RET 0
end
func 1 0 none
CALL 0 0 0
CALL 0 0 1
RET 0
end
entry 2
