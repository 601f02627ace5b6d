; The two arguments would stand in registers 1 and 2, and there is no register 2. In function 1 they stand in registers
; 0 and 1.
;
; $ x10p verify async_past_the_registers.x10
; status 1: verify: Index 2 0
places 1
func 2 0 none int int
RET 0
end
func 2 0 none int int
ASYNC 0 0
RET 0
end
func 2 0 none int int
ASYNC 1 0
RET 0
end
func 1 0 none
RET 0
end
entry 3
