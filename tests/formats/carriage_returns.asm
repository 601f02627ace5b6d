; Each line of this text ends by a carriage return and a line feed.
;
; same image as ../control/loop_in_loop.asm
;
; $ x10p run carriage_returns.x10
; 0: 4096
places 1
int 1
func 1 2 none

  INTK 0 0
  LOOP 0 3
outer:
  LOOP 1 4
inner:
  ADD 0 0 0
  ENDL 1 @inner
  ENDL 0 @outer
  PRINT 0
  RET 0
end
entry 0
