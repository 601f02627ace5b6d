; Two lines come, and not three.
;
; $ x10p run one_line_fewer.x10
; {{3 * 0: 7}}
places 1
int 7
func 1 0 none
INTK 0 0
PRINT 0
PRINT 0
RET 0
end
entry 0
