; PLACEI asks for a Place; the home of a reference is given by HOME.
;
; $ x10p verify placei_of_a_reference.x10
; status 1: verify: Kind 0 0
places 1
class
func 2 0 none gref:0
PLACEI 1 0
RET 0
end
func 1 0 none
RET 0
end
entry 1
