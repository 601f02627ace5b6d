; An activity with as many arguments as a function can have, in the last 16 of 64 registers.
;
; $ x10p bounds sixteen_arguments.x10
; 0 17
; 1 18
; $ x10p run sixteen_arguments.x10
; 0: 1
; 0: 2
; 0: 3
; 0: 4
; 0: 5
; 0: 6
; 0: 7
; 0: 8
; 0: 9
; 0: 10
; 0: 11
; 0: 12
; 0: 13
; 0: 14
; 0: 15
; 0: 16
; takes 35 events
places 1
int 1
func 64 0 none int int int int int int int int int int int int int int int int
  PRINT 0
  PRINT 1
  PRINT 2
  PRINT 3
  PRINT 4
  PRINT 5
  PRINT 6
  PRINT 7
  PRINT 8
  PRINT 9
  PRINT 10
  PRINT 11
  PRINT 12
  PRINT 13
  PRINT 14
  PRINT 15
  RET 0
end
; main
func 64 0 none
  INTK 48 0
  ADD 49 48 48
  ADD 50 49 48
  ADD 51 50 48
  ADD 52 51 48
  ADD 53 52 48
  ADD 54 53 48
  ADD 55 54 48
  ADD 56 55 48
  ADD 57 56 48
  ADD 58 57 48
  ADD 59 58 48
  ADD 60 59 48
  ADD 61 60 48
  ADD 62 61 48
  ADD 63 62 48
  ASYNC 48 0
  RET 0
end
entry 1
