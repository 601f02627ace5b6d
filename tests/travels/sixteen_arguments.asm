; The most arguments: 16 numbers, printed at place 1 in their order.
;
; $ x10p bounds sixteen_arguments.x10
; 0 17
; 1 36
; $ x10p run sixteen_arguments.x10
; 1: 100
; 1: 101
; 1: 102
; 1: 103
; 1: 104
; 1: 105
; 1: 106
; 1: 107
; 1: 108
; 1: 109
; 1: 110
; 1: 111
; 1: 112
; 1: 113
; 1: 114
; 1: 115
; takes 55 events
places 2
int 100
int 101
int 102
int 103
int 104
int 105
int 106
int 107
int 108
int 109
int 110
int 111
int 112
int 113
int 114
int 115
func 16 0 none int int int int int int int int int int int int int int int int
  PRINT 0
  PRINT 1
  PRINT 2
  PRINT 3
  PRINT 4
  PRINT 5
  PRINT 6
  PRINT 7
  PRINT 8
  PRINT 9
  PRINT 10
  PRINT 11
  PRINT 12
  PRINT 13
  PRINT 14
  PRINT 15
  RET 0
end
; main
func 17 0 none
  INTK 0 0
  INTK 1 1
  INTK 2 2
  INTK 3 3
  INTK 4 4
  INTK 5 5
  INTK 6 6
  INTK 7 7
  INTK 8 8
  INTK 9 9
  INTK 10 10
  INTK 11 11
  INTK 12 12
  INTK 13 13
  INTK 14 14
  INTK 15 15
  PLACEK 16 1
  AT 0 0 16 0
  RET 0
end
entry 1
