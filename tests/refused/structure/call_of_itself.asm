; A function calls only those before it, and not itself.
;
; $ x10p bounds call_of_itself.x10
; status 1: verify: Structure CallOrder 0 0
; $ x10p verify call_of_itself.x10
; status 1: verify: Structure CallOrder 0 0
places 1
int 0
func 1 3 none
CALL 0 0 0
RET 0
end
entry 0
