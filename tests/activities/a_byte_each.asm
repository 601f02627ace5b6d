; 256 activities that live at the same time, each with a byte of one rail. Each waits 800 turns and then sets its byte
; to 1. Main waits for all of them, and then adds up the bytes.
;
; $ x10p bounds a_byte_each.x10
; 0 804
; 1 1804
; $ x10p run a_byte_each.x10
; 0: 256
; takes 208430 events
places 1
int 0
int 1
int 256
; sets a byte of a rail, later
func 3 1 none rail int
  INTK 2 1
  LOOP 0 800
wait:
  ENDL 0 @wait
  RSET 0 1 2 @out
out:
  RET 0
end
; main
func 5 1 none
  INTK 0 2
  RAIL 0 0 @out
  INTK 1 0
  INTK 2 1
  FINB
  LOOP 0 256
start:
  ASYNC 0 0
  ADD 1 1 2
  ENDL 0 @start
  FINE
; the sum of the bytes
  INTK 1 0
  INTK 3 0
  LOOP 0 256
add:
  RGET 4 0 1 @out
  ADD 3 3 4
  ADD 1 1 2
  ENDL 0 @add
  PRINT 3
out:
  RET 0
end
entry 1
