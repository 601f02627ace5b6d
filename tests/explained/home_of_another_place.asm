; A reference whose home has to be the place where it goes.
;
; $ x10p check home_of_another_place.asm
; Home, function 1, instruction 1: ATA 0 1 0
; line 17: ATA 0 1 0
; ATA asks that the home of r0 is the place of r1, for parameter 0 of function 0, which is here:0; it isn't known to be.
; r1 was written last in line 16: HERE 1
; Put `HOME 1 0` before it: then r1 is the home of r0.
; status 1: verify: Home 1 1
places 1
class
func 1 0 none here:0
RET 0
end
func 2 0 none gref:0
HERE 1
ATA 0 1 0
RET 0
end
func 1 0 none
RET 0
end
entry 2
