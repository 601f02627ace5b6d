; TCAT asks for two texts.
;
; $ x10p verify tcat_of_int.x10
; status 1: verify: Kind 0 0
places 1
int 7
func 2 0 none text int
TCAT 0 0 1 1
RET 0
end
func 1 0 none
RET 0
end
entry 1
