; A text of version 2 with an atomic region.
;
; canonical
;
; $ x10p list region.x10
; version 2
; places 1
; int 7
; func 1 0 none
; INTK 0 0
; ATOMB
; PRINT 0
; ATOME
; RET 0
; end
; entry 0
version 2
places 1
int 7
func 1 0 none
INTK 0 0
ATOMB
PRINT 0
ATOME
RET 0
end
entry 0
