; A register that is set on one way alone, where two ways meet.
;
; $ x10p check set_on_one_way_alone.asm
; Unset, function 0, instruction 3: PRINT 1
; line 19: PRINT 1
; PRINT asks that r1 is int or text; r1 isn't set.
; Ways meet in line 19: PRINT 1
;   r1 is written in line 17: COUNT 1
;   r1 isn't set on the way from line 16: JZ 0 @print
; Set r1 on every way that leads here, to one kind, or before the ways part.
; status 1: verify: Unset 0 3
places 1
int 7
func 2 0 none
COUNT 0
JZ 0 @print
COUNT 1
print:
PRINT 1
RET 0
end
entry 0
