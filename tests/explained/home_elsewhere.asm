; A global reference that is opened, and may be at home elsewhere.
;
; $ x10p verify --explain home_elsewhere.x10
; status 1: verify: Home 0 0
; > Home, function 0, instruction 0: GOPEN 0 0
; > GOPEN asks that the home of r0 is here; it isn't known to be.
; > r0 came in as a parameter, gref:0, without `here`.
; > Ask before it, by `IFHERE 0 @LABEL`; or go to the home, by HOME and AT, to a function whose parameter is here:c.
places 1
class int
int 7
func 1 0 none gref:0
GOPEN 0 0
RET 0
end
func 2 0 none
INTK 0 0
NEW 1 0 0
GNEW 1 1
RET 0
end
entry 1
