; A fresh rail has zero bytes, whatever was written to those before it: in each of 100 turns a rail is
; made, its byte is printed where it isn't 0, and set to 255.
;
; $ x10p bounds made_in_a_loop.x10
; 0 706
; $ x10p run made_in_a_loop.x10
; 0: 255
; takes 606 events
places 1
int 0
int 1
int 255
func 5 1 none
  INTK 0 0
  INTK 1 1
  INTK 2 2
  LOOP 0 100
next:
  RAIL 3 1 @end
  RGET 4 3 0 @end
  JZ 4 @zero
  PRINT 4
zero:
  RSET 3 0 2 @end
  RGET 4 3 0 @end
  ENDL 0 @next
  PRINT 4
end:
  RET 0
end
entry 0
