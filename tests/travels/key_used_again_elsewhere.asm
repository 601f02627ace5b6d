; Activities come to place 1 and end there, three in turn. A place with stays that come and go keeps the order of
; those that are there.
;
; $ x10p bounds key_used_again_elsewhere.x10
; 0 8
; 1 17
; $ x10p run key_used_again_elsewhere.x10
; 1: 1
; 1: 1
; 1: 2
; 1: 1
; 1: 2
; 1: 2
; 1: 3
; 1: 4
; 1: 3
; 1: 4
; 1: 3
; 1: 4
; takes 55 events
places 2
int 1
int 2
int 3
int 4
func 2 1 none int
  LOOP 0 3
again:
  PRINT 0
  ENDL 0 @again
  RET 0
end
; main
func 2 1 none
  PLACEK 1 1
  INTK 0 0
  ATA 0 1 0
  INTK 0 1
  ATA 0 1 0
  INTK 0 2
  LOOP 0 6
pause:
  ENDL 0 @pause
  ATA 0 1 0
  INTK 0 3
  ATA 0 1 0
  RET 0
end
entry 1
