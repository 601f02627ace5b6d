; An activity begins with copies of the registers that it is given. What the starter or the activity puts into its own
; ones afterwards the other doesn't see: the activity prints 1, and main prints 2.
;
; $ x10p run registers_are_copied.x10
; 0: 1
; 0: 2
; takes 114 events
places 1
int 1
int 2
int 3
; prints its number later, and changes it
func 1 1 none int
  LOOP 0 50
wait:
  ENDL 0 @wait
  PRINT 0
  INTK 0 2
  RET 0
end
; main
func 1 0 none
  INTK 0 0
  FINB
  ASYNC 0 0
  INTK 0 1
  FINE
  PRINT 0
  RET 0
end
entry 1
