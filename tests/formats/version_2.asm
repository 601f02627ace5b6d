; A text of version 2. Leading zeros don't count.
;
; canonical
;
; $ x10p list version_2.x10
; version 2
; places 1
; int 7
; func 1 0 none
; INTK 0 0
; PRINT 0
; RET 0
; end
; entry 0
; $ x10p run version_2.x10
; 0: 7
; takes 3 events

; comments and blank lines may stand before it
version 2
places 1
int 7
func 1 0 none
INTK 0 0
PRINT 0
RET 0
end
entry 0
