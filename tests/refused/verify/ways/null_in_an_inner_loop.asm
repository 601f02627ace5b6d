; What may be null is printed in the inner of two loops, and written again in the outer one: it is no number in any
; turn.
;
; $ x10p verify null_in_an_inner_loop.x10
; status 1: verify: Kind 0 2
places 1
class
func 1 2 none opt:0
LOOP 0 5
LOOP 1 5
PRINT 0
ENDL 1 2
NULL 0 0
ENDL 0 1
RET 0
end
func 1 0 none
RET 0
end
entry 1
