; The first turn finds a number in register 0 and leaves a text there, which the second one would find.
;
; $ x10p verify text_from_the_turn_before.x10
; status 1: verify: Unset 0 1
places 1
text "t"
func 1 1 none int
LOOP 0 5
ADD 0 0 0
TEXTK 0 0
ENDL 0 1
RET 0
end
func 1 0 none
RET 0
end
entry 1
