; Two arguments are the same object, and they still are where they arrive: what is put into one is read from the
; other. Two that are alike stay two.
;
; $ x10p bounds sharing_is_kept.x10
; 0 5
; 1 18
; $ x10p run sharing_is_kept.x10
; 1: 9
; 1: 1
; takes 32 events
places 2
class int
int 9
int 1
; sets the first, reads the second
func 4 0 none obj:0 obj:0
  INTK 2 0
  PUT 0 2 0
  GET 3 1 0
  PRINT 3
  RET 0
end
; main
func 5 0 none
  INTK 0 1
  NEW 1 0 0
  MOVE 2 1
  PLACEK 3 1
  AT 0 1 3 0
  NEW 2 0 0
  AT 0 1 3 0
  RET 0
end
entry 1
