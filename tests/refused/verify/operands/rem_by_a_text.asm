; REM asks for two Ints: the divisor is a text.
;
; $ x10p verify rem_by_a_text.x10
; status 1: verify: Kind 0 0
places 1
func 2 0 none int text
REM 0 0 1 1
RET 0
end
func 1 0 none
RET 0
end
entry 1
