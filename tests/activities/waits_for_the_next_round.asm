; An activity takes its first step in the round after the one in which it was started, and in that round main, whose
; key is lower, comes first: main prints 2, and then the activity prints 1.
;
; $ x10p run waits_for_the_next_round.x10
; 0: 2
; 0: 1
; takes 7 events
places 1
int 1
int 2
func 1 0 none int
  PRINT 0
  RET 0
end
; main
func 2 0 none
  INTK 0 0
  INTK 1 1
  ASYNC 0 0
  PRINT 1
  RET 0
end
entry 1
