; A register that is set on one way alone, where two ways meet.
;
; $ x10p verify --explain set_on_one_way.x10
; status 1: verify: Unset 0 3
; > Unset, function 0, instruction 3: PRINT 1
; > PRINT asks that r1 is int or text; r1 isn't set.
; > Ways meet in instruction 3: PRINT 1
; >   r1 is written in instruction 2: INTK 1 0
; >   r1 isn't set on the way from instruction 1: JZ 0 3
; > Set r1 on every way that leads here, to one kind, or before the ways part.
places 1
int 7
func 2 0 none
INTK 0 0
JZ 0 @over
INTK 1 0
over:
PRINT 1
RET 0
end
entry 0
