; A global reference that was read from an object.
;
; $ x10p check home_written_elsewhere.asm
; Home, function 0, instruction 1: GOPEN 1 1
; line 14: GOPEN 1 1
; GOPEN asks that the home of r1 is here; it isn't known to be.
; r1 was written last in line 13: GET 1 0 0
; Ask before it, by `IFHERE 1 @LABEL`; or go to the home, by HOME and AT, to a function whose parameter is here:c.
; status 1: verify: Home 0 1
places 1
class gref:0
func 2 0 none obj:0
GET 1 0 0
GOPEN 1 1
RET 0
end
func 1 0 none
RET 0
end
entry 1
