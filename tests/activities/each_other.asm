; Two functions that start each other, which no two functions may do by CALL. The first prints a number, the second its
; negative.
;
; $ x10p bounds each_other.x10
; 0 6
; 1 8
; 2 3
; $ x10p run each_other.x10
; 0: 5
; 0: -4
; 0: 3
; 0: -2
; 0: 1
; takes 39 events
places 1
int 0
int 1
int 5
func 2 0 none int
  JZ 0 @out
  PRINT 0
  INTK 1 1
  SUB 0 0 1
  ASYNC 0 1
out:
  RET 0
end
func 3 0 none int
  JZ 0 @out
  INTK 1 0
  SUB 1 1 0
  PRINT 1
  INTK 1 1
  SUB 0 0 1
  ASYNC 0 0
out:
  RET 0
end
; main
func 1 0 none
  INTK 0 2
  ASYNC 0 0
  RET 0
end
entry 2
