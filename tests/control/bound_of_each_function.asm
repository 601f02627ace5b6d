; Each function has its own bound, also one that nobody calls.
;
; canonical
;
; $ x10p bounds bound_of_each_function.x10
; 0 4
; 1 2
; $ x10p verify bound_of_each_function.x10
; verified 2 functions, entry bound 4
; $ x10p run bound_of_each_function.x10
; 0: 2
; takes 4 events
places 1
int 1
func 1 0 none
INTK 0 0
ADD 0 0 0
PRINT 0
RET 0
end
func 1 0 none
INTK 0 0
RET 0
end
entry 0
