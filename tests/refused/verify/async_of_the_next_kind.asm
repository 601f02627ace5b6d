; Arguments stand in a row of registers: the first fits, and the second, a rail, doesn't.
;
; $ x10p verify async_of_the_next_kind.x10
; status 1: verify: Kind 2 0
places 1
func 3 0 none int text
RET 0
end
func 3 0 none int text rail
ASYNC 0 0
RET 0
end
func 3 0 none int rail text
ASYNC 0 0
RET 0
end
func 1 0 none
RET 0
end
entry 3
