; While main waits at FINE, each round has an idle look of its own: the run takes more events than the steps of all
; activities.
;
; $ x10p bounds idle_at_a_fine.x10
; 0 12
; 1 7
; $ x10p run idle_at_a_fine.x10
; 0: 1
; takes 32 events
places 2
int 1
func 1 1 none
  LOOP 0 10
again:
  ENDL 0 @again
  RET 0
end
; main
func 1 0 none
  PLACEK 0 1
  FINB
  ATA 0 0 0
  FINE
  INTK 0 0
  PRINT 0
  RET 0
end
entry 1
