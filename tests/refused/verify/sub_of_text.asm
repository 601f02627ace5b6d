; SUB asks for Ints.
;
; $ x10p verify sub_of_text.x10
; status 1: verify: Kind 1 0
places 1
class
int 7
func 1 0 none
RET 0
end
func 2 0 none text
SUB 1 0 0
RET 0
end
entry 0
