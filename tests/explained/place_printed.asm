; A place that is printed.
;
; $ x10p check place_printed.asm
; Kind, function 0, instruction 1: PRINT 0
; line 14: PRINT 0
; PRINT asks that r0 is int or text; r0 is place.
; r0 was written last in line 13: HERE 0
; Put `PLACEI 0 0` before it, which makes the number of a place.
; status 1: verify: Kind 0 1
places 1
int 7
func 1 0 none
HERE 0
PRINT 0
RET 0
end
entry 0
