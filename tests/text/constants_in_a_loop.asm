; A text constant that is made 1,000 times: it is the same each time.
;
; $ x10p bounds constants_in_a_loop.x10
; 0 3002
; $ x10p run constants_in_a_loop.x10
; {{1000 * 0: again}}
; takes 3002 events
places 1
text "again"
func 1 1 none
  LOOP 0 1000
next:
  TEXTK 0 0
  PRINT 0
  ENDL 0 @next
  RET 0
end
entry 0
