; Three loops of the greatest count, in one another: 65535^3 + 2 * 65535^2 + 2 * 65535 + 2 steps.
; The run meets the limit of a million events, which stands where none is given.
;
; $ x10p bounds three_loops.x10
; 0 281470681808897
; $ x10p run three_loops.x10
; status 2: limit
places 1
int 0
func 1 3 none
LOOP 0 65535
LOOP 1 65535
LOOP 2 65535
ENDL 2 3
ENDL 1 2
ENDL 0 1
RET 0
end
entry 0
