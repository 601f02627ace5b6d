; Frames are taken in while an activity is inside a region. What they bring makes its first step after the ATOME: two
; activities come to place 1 while another one prints inside a region there, and their numbers come after its own.
;
; $ x10p run frames_come_in.x10
; 1: 1
; 1: 1
; 1: 1
; 1: 7
; 1: 7
; takes 50 events
version 2
places 2
int 1
int 7
; at place 1: prints inside a region
func 1 1 none
  ATOMB
  INTK 0 0
  LOOP 0 3
again:
  PRINT 0
  ENDL 0 @again
  ATOME
  RET 0
end
func 1 0 none int
  PRINT 0
  RET 0
end
func 2 0 none
  PLACEK 1 1
  INTK 0 1
  FINB
  ATA 0 1 0
  ATA 0 1 1
  ATA 0 1 1
  FINE
  RET 0
end
entry 2
