; PLACEN goes to its label where there is no place with the number: -1, the least number, 2^32, and as many as there
; are. It finds place 0 and the last one.
;
; $ x10p bounds numbered_out_of_range.x10
; 0 5
; 1 50
; $ x10p run numbered_out_of_range.x10
; 0: 777
; 0: 0
; 0: 777
; 0: 777
; 0: 777
; 0: 0
; takes 38 events
; $ x10p run numbered_out_of_range.x10 --places 3
; 0: 777
; 0: 0
; 0: 777
; 0: 777
; 0: 777
; 0: 2
; takes 38 events
places 1
int -1
int 0
int -9223372036854775808
int 4294967296
int 777
func 4 0 int int
  PLACEN 1 0 @none
  PLACEI 2 1
  RET 2
none:
  INTK 2 4
  RET 2
end
func 4 0 none
  INTK 0 0
  CALL 1 0 0
  PRINT 1
  INTK 0 1
  CALL 1 0 0
  PRINT 1
  INTK 0 2
  CALL 1 0 0
  PRINT 1
  INTK 0 3
  CALL 1 0 0
  PRINT 1
  COUNT 0
  CALL 1 0 0
  PRINT 1
  INTK 2 0
  ADD 0 0 2
  CALL 1 0 0
  PRINT 1
  RET 0
end
entry 1
