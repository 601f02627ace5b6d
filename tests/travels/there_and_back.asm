; Main goes to place 1, prints there, and is back at place 0. What it prints there is a line of place 1.
;
; $ x10p bounds there_and_back.x10
; 0 2
; 1 7
; $ x10p run there_and_back.x10
; 0: 5
; 1: 5
; takes 11 events
places 2
int 5
func 1 0 none int
  PRINT 0
  RET 0
end
; main
func 2 0 none
  INTK 0 0
  PLACEK 1 1
  AT 0 0 1 0
  PRINT 0
  RET 0
end
entry 1
