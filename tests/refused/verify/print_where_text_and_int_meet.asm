; On one way the register has a number, on the other a text: nothing is known of it.
;
; $ x10p verify print_where_text_and_int_meet.x10
; status 1: verify: Unset 0 2
places 1
text "a"
func 1 0 none int
JZ 0 2
TEXTK 0 0
PRINT 0
RET 0
end
func 1 0 none
RET 0
end
entry 1
