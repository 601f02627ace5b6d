; Recursion by ASYNC: an activity prints its number, and starts one with the number before. Each has ended before the
; next one prints, and one finish, which main opened around the first, waits for all of them.
;
; $ x10p bounds counts_down.x10
; 0 6
; 1 7
; $ x10p run counts_down.x10
; 0: 6
; 0: 5
; 0: 4
; 0: 3
; 0: 2
; 0: 1
; 0: 100
; takes 77 events
places 1
int 1
int 6
int 100
func 2 0 none int
  JZ 0 @out
  PRINT 0
  INTK 1 0
  SUB 0 0 1
  ASYNC 0 0
out:
  RET 0
end
; main
func 1 0 none
  FINB
  INTK 0 1
  ASYNC 0 0
  FINE
  INTK 0 2
  PRINT 0
  RET 0
end
entry 1
