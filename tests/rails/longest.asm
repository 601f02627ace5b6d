; A rail of the most bytes: all are 0 at first. Then each is set to its index modulo 256: that is 0 to
; 255 over and over, 256 times but for one last 255, with the sum 256 * 32,640 - 255. The last byte is
; 254, and behind it, at 65,535, there is none.
;
; $ x10p bounds longest.x10
; 0 262145
; 1 196609
; 2 720915
; $ x10p run longest.x10
; 0: 0
; 0: 8355585
; 0: 254
; 0: 65535
; takes 720914 events
places 1
int 0
int 1
int 65534
int 65535
; the sum of all bytes of a rail
func 5 1 int rail
  INTK 1 0
  INTK 2 0
  INTK 3 1
  LOOP 0 65535
next:
  RGET 4 0 1 @done
  ADD 2 2 4
  ADD 1 1 3
  ENDL 0 @next
done:
  RET 2
end
; sets each byte of a rail to what its index leaves modulo 256
func 3 1 none rail
  INTK 1 0
  INTK 2 1
  LOOP 0 65535
next:
  RSET 0 1 1 @done
  ADD 1 1 2
  ENDL 0 @next
done:
  RET 0
end
; main
func 4 0 none
  INTK 0 3
  RAIL 0 0 @end
  CALL 1 0 0
  PRINT 1
  CALL 0 0 1
  CALL 1 0 0
  PRINT 1
; the last byte, and none behind it
  INTK 1 2
  RGET 2 0 1 @end
  PRINT 2
  INTK 1 3
  MOVE 2 1
  RGET 2 0 1 @behind
  JMP @end
behind:
  PRINT 2
end:
  RET 0
end
entry 2
