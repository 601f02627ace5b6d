; Function 0 takes a number, and register 1 holds a text.
;
; $ x10p verify call_with_a_text.x10
; status 1: verify: Kind 1 0
places 1
func 1 0 int int
RET 0
end
func 2 0 none int text
CALL 0 1 0
RET 0
end
func 1 0 none
RET 0
end
entry 2
