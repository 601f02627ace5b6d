; Two places send each other frames of up to 160,000 bytes at the same time, twenty each. Neither waits for the other to take
; them in.
;
; $ x10p run long_frames_to_and_fro.x10
; 0: 1
; $ x10p run long_frames_to_and_fro.x10 --threads
; 0: 1
places 2
class opt:0
int 1
func 1 0 none opt:0
  RET 0
end
; sends a list that grows
func 3 2 none place
  NULL 1 0
  LOOP 0 20
again:
  LOOP 1 1000
longer:
  NEW 2 1 0
  MOVE 1 2
  ENDL 1 @longer
  ATA 1 0 0
  ENDL 0 @again
  RET 0
end
; main
func 3 0 none
  HERE 0
  NEXTP 1 0
  FINB
  ATA 0 1 1
  MOVE 2 1
  ASYNC 2 1
  FINE
  INTK 0 0
  PRINT 0
  RET 0
end
entry 2
