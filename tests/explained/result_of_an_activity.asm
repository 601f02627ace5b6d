; An activity whose result nobody would take.
;
; $ x10p check result_of_an_activity.asm
; Result, function 1, instruction 0: ASYNC 0 0
; line 15: ASYNC 0 0
; ASYNC starts an activity with function 0, whose result nothing would take: it may give none.
; Nobody waits for it: give the function an object or a global reference, to put it into.
; status 1: verify: Result 1 0
places 1
func 1 0 place
HERE 0
RET 0
end
func 1 0 none
ASYNC 0 0
RET 0
end
entry 1
