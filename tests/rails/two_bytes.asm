; The second of two bytes is set to -1, and is 255. There is no byte at 2, so that the last PRINT is left
; out.
;
; canonical
;
; $ x10p bounds two_bytes.x10
; 0 10
; $ x10p run two_bytes.x10
; 0: 255
; takes 9 events
places 1
int 2
int -1
int 1
func 4 0 none
INTK 0 0
RAIL 1 0 9
INTK 2 1
INTK 3 2
RSET 1 3 2 9
RGET 3 1 3 9
PRINT 3
RGET 3 1 0 9
PRINT 0
RET 0
end
entry 0
