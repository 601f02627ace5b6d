; It prints a line.
;
; $ x10p run line_missing.x10
places 1
int 7
func 1 0 none
INTK 0 0
PRINT 0
RET 0
end
entry 0
