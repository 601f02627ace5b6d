; A text where a number is asked for.
;
; $ x10p verify --explain other_kind.x10
; status 1: verify: Kind 0 2
; > Kind, function 0, instruction 2: ADD 0 0 1
; > ADD asks that r1 is int; r1 is text.
; > r1 was written last in instruction 1: TEXTK 1 0
places 1
int 7
text "seven"
func 2 0 none
INTK 0 0
TEXTK 1 0
ADD 0 0 1
PRINT 0
RET 0
end
entry 0
