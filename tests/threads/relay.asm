; A number goes round four places, each of which prints it, takes 1 off and starts an activity at the next place. One
; activity works at a time, so that the places print the same however their threads run, and in one thread too.
;
; $ x10p run --threads relay.x10
; 0: 10
; 0: 6
; 0: 2
; 1: 9
; 1: 5
; 1: 1
; 2: 8
; 2: 4
; 3: 7
; 3: 3
; 3 times
; $ x10p run relay.x10
; 0: 10
; 0: 6
; 0: 2
; 1: 9
; 1: 5
; 1: 1
; 2: 8
; 2: 4
; 3: 7
; 3: 3
; $ x10p run relay.x10 --threads --places 5
; 0: 10
; 0: 5
; 1: 9
; 1: 4
; 2: 8
; 2: 3
; 3: 7
; 3: 2
; 4: 6
; 4: 1
places 4
int 10
int 1
; prints a number, and hands on one less
func 3 0 none int
  JZ 0 @out
  PRINT 0
  INTK 1 1
  SUB 0 0 1
  HERE 2
  NEXTP 2 2
  ATA 0 2 0
out:
  RET 0
end
; main
func 1 0 none
  INTK 0 0
  ASYNC 0 0
  RET 0
end
entry 1
