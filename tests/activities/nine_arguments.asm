; An activity with nine arguments, from register 1 on.
;
; $ x10p bounds nine_arguments.x10
; 0 10
; 1 11
; $ x10p run nine_arguments.x10
; 0: 1
; 0: 2
; 0: 3
; 0: 4
; 0: 5
; 0: 6
; 0: 7
; 0: 8
; 0: 9
; takes 21 events
places 1
int 1
func 9 0 none int int int int int int int int int
  PRINT 0
  PRINT 1
  PRINT 2
  PRINT 3
  PRINT 4
  PRINT 5
  PRINT 6
  PRINT 7
  PRINT 8
  RET 0
end
; main
func 10 0 none
  INTK 1 0
  ADD 2 1 1
  ADD 3 2 1
  ADD 4 3 1
  ADD 5 4 1
  ADD 6 5 1
  ADD 7 6 1
  ADD 8 7 1
  ADD 9 8 1
  ASYNC 1 0
  RET 0
end
entry 1
