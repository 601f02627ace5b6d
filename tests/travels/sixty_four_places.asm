; An activity at each of 64 places, each started by the one before it. Main waits for all of them, though it started
; one alone.
;
; $ x10p bounds sixty_four_places.x10
; 0 9
; 1 8
; $ x10p run sixty_four_places.x10
; 0: 0
; 0: 64
; 1: 1
; 2: 2
; 3: 3
; 4: 4
; 5: 5
; 6: 6
; 7: 7
; 8: 8
; 9: 9
; 10: 10
; 11: 11
; 12: 12
; 13: 13
; 14: 14
; 15: 15
; 16: 16
; 17: 17
; 18: 18
; 19: 19
; 20: 20
; 21: 21
; 22: 22
; 23: 23
; 24: 24
; 25: 25
; 26: 26
; 27: 27
; 28: 28
; 29: 29
; 30: 30
; 31: 31
; 32: 32
; 33: 33
; 34: 34
; 35: 35
; 36: 36
; 37: 37
; 38: 38
; 39: 39
; 40: 40
; 41: 41
; 42: 42
; 43: 43
; 44: 44
; 45: 45
; 46: 46
; 47: 47
; 48: 48
; 49: 49
; 50: 50
; 51: 51
; 52: 52
; 53: 53
; 54: 54
; 55: 55
; 56: 56
; 57: 57
; 58: 58
; 59: 59
; 60: 60
; 61: 61
; 62: 62
; 63: 63
; takes 1153 events
places 64
int 1
int 63
int 64
; prints its place's number, and starts the next one where turns are left
func 3 0 none int
  HERE 1
  PLACEI 2 1
  PRINT 2
  JZ 0 @out
  INTK 2 0
  SUB 0 0 2
  NEXTP 1 1
  ATA 0 1 0
out:
  RET 0
end
; main
func 2 0 none
  FINB
  INTK 0 1
  HERE 1
  ATA 0 1 0
  FINE
  INTK 0 2
  PRINT 0
  RET 0
end
entry 1
