; One object in two registers: what is put through the one is got through the other. Its second field is
; null, so that IFOBJ goes past the last PRINT.
;
; canonical
;
; $ x10p bounds two_names.x10
; 0 12
; $ x10p run two_names.x10
; 0: 6
; takes 11 events
places 1
class int opt:0
int 5
int 6
func 5 0 none
INTK 0 0
NULL 1 0
NEW 2 0 0
MOVE 3 2
INTK 4 1
PUT 3 4 0
GET 4 2 0
PRINT 4
GET 1 2 1
IFOBJ 3 1 11
PRINT 0
RET 0
end
entry 0
