; Nothing is wrong with this text.
;
; $ x10p verify not_refused.x10
; status 1: verify: Unset 0 1
places 1
int 7
func 1 0 none
INTK 0 0
PRINT 0
RET 0
end
entry 0
