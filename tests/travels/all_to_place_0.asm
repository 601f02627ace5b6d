; Each of 64 places starts an activity at place 0 that prints where it comes from. They begin there by the numbers of
; their frames.
;
; $ x10p bounds all_to_place_0.x10
; 0 2
; 1 4
; 2 200
; $ x10p run all_to_place_0.x10
; 0: 0
; 0: 1
; 0: 2
; 0: 3
; 0: 4
; 0: 5
; 0: 6
; 0: 7
; 0: 8
; 0: 9
; 0: 10
; 0: 11
; 0: 12
; 0: 13
; 0: 14
; 0: 15
; 0: 16
; 0: 17
; 0: 18
; 0: 19
; 0: 20
; 0: 21
; 0: 22
; 0: 23
; 0: 24
; 0: 25
; 0: 26
; 0: 27
; 0: 28
; 0: 29
; 0: 30
; 0: 31
; 0: 32
; 0: 33
; 0: 34
; 0: 35
; 0: 36
; 0: 37
; 0: 38
; 0: 39
; 0: 40
; 0: 41
; 0: 42
; 0: 43
; 0: 44
; 0: 45
; 0: 46
; 0: 47
; 0: 48
; 0: 49
; 0: 50
; 0: 51
; 0: 52
; 0: 53
; 0: 54
; 0: 55
; 0: 56
; 0: 57
; 0: 58
; 0: 59
; 0: 60
; 0: 61
; 0: 62
; 0: 63
; 0: 64
; takes 777 events
places 64
func 1 0 none int
  PRINT 0
  RET 0
end
; starts one at the place that it was given
func 2 0 none place
  HERE 1
  PLACEI 1 1
  ATA 1 0 0
  RET 0
end
; main
func 3 1 none
  HERE 0
  HERE 1
  FINB
  LOOP 0 64
again:
  ATA 0 1 1
  NEXTP 1 1
  ENDL 0 @again
  FINE
  COUNT 0
  PRINT 0
  RET 0
end
entry 2
