; ATA to the place where one is gives the activity a copy, so what it changes isn't seen. ASYNC shares the object.
;
; $ x10p bounds ata_to_here_copies.x10
; 0 3
; 1 14
; $ x10p run ata_to_here_copies.x10
; 0: 1
; 0: 9
; takes 27 events
; $ x10p run ata_to_here_copies.x10 --places 2
; 0: 1
; 0: 9
; takes 27 events
places 1
class int
int 9
int 1
; sets the field to 9
func 2 0 none obj:0
  INTK 1 0
  PUT 0 1 0
  RET 0
end
; main
func 4 0 none
  INTK 0 1
  NEW 1 0 0
  HERE 2
  FINB
  ATA 1 2 0
  FINE
  GET 3 1 0
  PRINT 3
  FINB
  ASYNC 1 0
  FINE
  GET 3 1 0
  PRINT 3
  RET 0
end
entry 1
