; It takes three events.
;
; $ x10p run fewer_events.x10
; 0: 7
; takes 2 events
places 1
int 7
func 1 0 none
INTK 0 0
PRINT 0
RET 0
end
entry 0
