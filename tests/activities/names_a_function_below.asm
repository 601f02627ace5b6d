; Main stands above the function that it starts: ASYNC may name any function, where CALL names only those that stand
; above its own.
;
; canonical
;
; $ x10p bounds names_a_function_below.x10
; 0 4
; 1 3
; $ x10p run names_a_function_below.x10
; 0: 7
; takes 10 events
places 1
int 7
func 1 0 none
FINB
ASYNC 0 1
FINE
RET 0
end
func 1 0 none
INTK 0 0
PRINT 0
RET 0
end
entry 0
