; A global reference of a parameter that is opened: nothing says that its home is here.
;
; $ x10p check home_not_asked_for.asm
; Home, function 0, instruction 0: GOPEN 1 0
; line 13: GOPEN 1 0
; GOPEN asks that the home of r0 is here; it isn't known to be.
; r0 came in as a parameter, gref:0, without `here`.
; Ask before it, by `IFHERE 0 @LABEL`; or go to the home, by HOME and AT, to a function whose parameter is here:c.
; status 1: verify: Home 0 0
places 1
class
func 2 0 none gref:0
GOPEN 1 0
RET 0
end
func 1 0 none
RET 0
end
entry 1
