; After the last place comes the first.
;
; $ x10p bounds next_after_the_last.x10
; 0 24
; $ x10p run next_after_the_last.x10
; 0: 0
; 0: 1
; 0: 0
; 0: 1
; 0: 0
; takes 24 events
; $ x10p run next_after_the_last.x10 --places 3
; 0: 0
; 0: 1
; 0: 2
; 0: 0
; 0: 1
; takes 24 events
places 2
func 4 1 none
  HERE 0
  COUNT 2
  LOOP 0 5
again:
  PLACEI 1 0
  PRINT 1
  NEXTP 0 0
  ENDL 0 @again
  RET 0
end
entry 0
