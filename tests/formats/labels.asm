; Labels, blank lines, comments and spaces at the front of a line say nothing of their own: the text
; without them has the same image.
;
; same image as ../control/loop_in_loop.asm
;
; $ x10p list labels.x10
; places 1
; int 1
; func 1 2 none
; INTK 0 0
; LOOP 0 3
; LOOP 1 4
; ADD 0 0 0
; ENDL 1 3
; ENDL 0 2
; PRINT 0
; RET 0
; end
; entry 0
places 1
int 1
func 1 2 none

  INTK 0 0
  LOOP 0 3
outer:
  LOOP 1 4
inner:
  ADD 0 0 0
  ENDL 1 @inner
  ENDL 0 @outer
  PRINT 0
  RET 0
end
entry 0
