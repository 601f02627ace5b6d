; The verifier refuses this text, and no command here says so.
;
; $ x10p bounds refused.x10
; 0 2
places 1
func 1 0 none
PRINT 0
RET 0
end
entry 0
