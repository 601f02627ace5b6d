; Eight loops of the greatest count, in one another: the product of their counts needs 128 bits.
;
; $ x10p bounds eight_loops.x10
; status 1: verify: Structure TooLarge 0 0
; $ x10p verify eight_loops.x10
; status 1: verify: Structure TooLarge 0 0
places 1
func 1 8 none
LOOP 0 65535
LOOP 1 65535
LOOP 2 65535
LOOP 3 65535
LOOP 4 65535
LOOP 5 65535
LOOP 6 65535
LOOP 7 65535
ENDL 7 8
ENDL 6 7
ENDL 5 6
ENDL 4 5
ENDL 3 4
ENDL 2 3
ENDL 1 2
ENDL 0 1
RET 0
end
entry 0
