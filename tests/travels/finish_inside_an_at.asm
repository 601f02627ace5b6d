; Here the finish stands in the function that AT goes to: it is one of place 1, and main is back only when it has
; closed.
;
; $ x10p bounds finish_inside_an_at.x10
; 0 29
; 1 6
; 2 11
; $ x10p run finish_inside_an_at.x10
; 0: 5
; 1: 4
; 1: 3
; takes 106 events
places 2
int 4
int 3
int 5
func 1 1 none
  LOOP 0 25
again:
  ENDL 0 @again
  INTK 0 0
  PRINT 0
  RET 0
end
func 1 0 none
  FINB
  ASYNC 0 0
  FINE
  INTK 0 1
  PRINT 0
  RET 0
end
; main
func 1 0 none
  PLACEK 0 1
  AT 0 0 0 1
  INTK 0 2
  PRINT 0
  RET 0
end
entry 2
