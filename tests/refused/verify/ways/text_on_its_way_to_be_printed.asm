; In each turn a value moves on by a register, from 2 to 1 and from there to 0, which is printed: first numbers, and
; then the text. Already in the second turn register 2 has no kind where it is moved.
;
; $ x10p verify text_on_its_way_to_be_printed.x10
; status 1: verify: Unset 0 6
places 1
int 7
text "t"
func 3 1 none
INTK 0 0
INTK 1 0
INTK 2 0
LOOP 0 5
PRINT 0
MOVE 0 1
MOVE 1 2
TEXTK 2 0
ENDL 0 4
RET 0
end
func 1 0 none
RET 0
end
entry 1
