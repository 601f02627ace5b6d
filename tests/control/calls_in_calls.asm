; A number, and four times that through three calls. The innermost function has nine registers.
;
; canonical
;
; $ x10p bounds calls_in_calls.x10
; 0 2
; 1 5
; 2 8
; 3 13
; $ x10p run calls_in_calls.x10
; 0: 5
; 0: 20
; takes 13 events
places 1
int 5
func 9 0 int int
ADD 0 0 0
RET 0
end
func 2 0 int int
CALL 1 0 0
ADD 0 0 1
RET 0
end
func 2 0 int int
CALL 1 0 1
ADD 0 0 1
RET 0
end
func 2 0 none
INTK 1 0
PRINT 1
CALL 0 1 2
PRINT 0
RET 0
end
entry 3
