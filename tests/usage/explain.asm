; `explain` tells what the page of faults says of a cause, whose name the fault's line has.
;
; $ x10p verify explain.x10
; status 1: verify: Home 0 0
; $ x10p explain Home
; verify: Home: the home isn't known to be here, or where the reference goes.
; ..
; Test it: `IFHERE 0 @else`. Or go there: `HOME 1 0`, then AT with register 1, to
; a function with a parameter `here:0`. Or flag the parameter, `here:0`, so that
; the caller must know it.
; $ x10p explain trailing
; image: Trailing. Bytes after the last function.
; ..
; $ x10p explain Nothing
; status 3
; $ x10p explain
; status 3
; $ x10p explain Home --explain
; status 3
places 1
class
func 2 0 none gref:0
GOPEN 1 0
RET 0
end
func 1 0 none
RET 0
end
entry 1
