; An activity sends itself to the next place, again and again, and ends each time where it was. The finish waits for
; all ten hops: 99 comes last.
;
; $ x10p bounds sends_itself_round.x10
; 0 8
; 1 9
; $ x10p run sends_itself_round.x10
; 0: 9
; 0: 7
; 0: 5
; 0: 3
; 0: 1
; 0: 99
; 1: 10
; 1: 8
; 1: 6
; 1: 4
; 1: 2
; 1: 0
; takes 176 events
; $ x10p run sends_itself_round.x10 --places 3
; 0: 8
; 0: 5
; 0: 2
; 0: 99
; 1: 10
; 1: 7
; 1: 4
; 1: 1
; 2: 9
; 2: 6
; 2: 3
; 2: 0
; takes 176 events
; $ x10p run sends_itself_round.x10 --places 5
; 0: 6
; 0: 1
; 0: 99
; 1: 10
; 1: 5
; 1: 0
; 2: 9
; 2: 4
; 3: 8
; 3: 3
; 4: 7
; 4: 2
; takes 176 events
; $ x10p run sends_itself_round.x10 --places 64
; 0: 99
; 1: 10
; 2: 9
; 3: 8
; 4: 7
; 5: 6
; 6: 5
; 7: 4
; 8: 3
; 9: 2
; 10: 1
; 11: 0
; takes 176 events
places 2
int 1
int 10
int 99
; prints how many hops are left
func 3 0 none int
  PRINT 0
  JZ 0 @out
  INTK 1 0
  SUB 0 0 1
  HERE 1
  NEXTP 1 1
  ATA 0 1 0
out:
  RET 0
end
; main
func 2 0 none
  FINB
  INTK 0 1
  HERE 1
  NEXTP 1 1
  ATA 0 1 0
  FINE
  INTK 0 2
  PRINT 0
  RET 0
end
entry 1
