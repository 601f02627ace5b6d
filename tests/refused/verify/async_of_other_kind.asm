; The function takes a text, and register 0 holds a number. In function 1 it holds a text.
;
; $ x10p verify async_of_other_kind.x10
; status 1: verify: Kind 2 0
places 1
func 1 0 none text
RET 0
end
func 1 0 none text
ASYNC 0 0
RET 0
end
func 1 0 none int
ASYNC 0 0
RET 0
end
func 1 0 none
RET 0
end
entry 3
