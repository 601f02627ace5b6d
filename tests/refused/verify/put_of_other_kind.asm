; The field is a number, and register 1 a text.
;
; $ x10p verify put_of_other_kind.x10
; status 1: verify: Kind 0 0
places 1
class int
func 2 0 none obj:0 text
PUT 0 1 0
RET 0
end
func 1 0 none
RET 0
end
entry 1
