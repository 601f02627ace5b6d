; A register that a division sets only where it goes on.
;
; $ x10p check set_on_going_on_alone.asm
; Unset, function 0, instruction 3: PRINT 1
; line 17: PRINT 1
; PRINT asks that r1 is int or text; r1 isn't set.
; r1 is written only on going on, and not on the way to a label, by line 14: DIV 1 0 0 @zero
; Set r1 before it is read.
; status 1: verify: Unset 0 3
places 1
int 7
func 2 0 none
COUNT 0
DIV 1 0 0 @zero
RET 0
zero:
PRINT 1
RET 0
end
entry 0
