; What a function gives of two numbers, and then the first of them: the caller's registers aren't the
; callee's.
;
; canonical
;
; $ x10p bounds call_of_two.x10
; 0 2
; 1 8
; $ x10p run call_of_two.x10
; 0: 7
; 0: 10
; takes 8 events
places 1
int 10
int 3
func 3 0 int int int
SUB 2 0 1
RET 2
end
func 6 0 none
INTK 4 0
INTK 5 1
CALL 3 4 0
PRINT 3
PRINT 4
RET 0
end
entry 1
