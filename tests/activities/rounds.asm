; In a round each activity takes one step, by rising key, and activities that were started one after the other have
; rising keys. Three of them print their number three times, each beginning a round later than the one before.
;
; $ x10p bounds rounds.x10
; 0 4
; 1 7
; $ x10p run rounds.x10
; 0: 1
; 0: 1
; 0: 2
; 0: 1
; 0: 2
; 0: 3
; 0: 2
; 0: 3
; 0: 3
; takes 19 events
places 1
int 1
int 2
int 3
func 1 0 none int
  PRINT 0
  PRINT 0
  PRINT 0
  RET 0
end
; main
func 3 0 none
  INTK 0 0
  INTK 1 1
  INTK 2 2
  ASYNC 0 0
  ASYNC 1 0
  ASYNC 2 0
  RET 0
end
entry 1
