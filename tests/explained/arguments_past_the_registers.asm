; Arguments that go past the last register.
;
; $ x10p check arguments_past_the_registers.asm
; Index, function 1, instruction 2: CALL 0 1 0
; line 15: CALL 0 1 0
; The 2 arguments are in r1 to r2; the function has 2 registers, numbers 0 to 1.
; status 1: verify: Index 1 2
places 1
func 2 0 none int int
RET 0
end
func 2 0 none
COUNT 0
COUNT 1
CALL 0 1 0
RET 0
end
entry 1
