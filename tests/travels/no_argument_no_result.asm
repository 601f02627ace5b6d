; A function without parameters and without a result. The AT takes one step, and the activity 3 more at the other
; place.
;
; $ x10p bounds no_argument_no_result.x10
; 0 3
; 1 6
; $ x10p run no_argument_no_result.x10
; 1: here
; takes 11 events
places 2
text "here"
func 1 0 none
  TEXTK 0 0
  PRINT 0
  RET 0
end
; main
func 1 0 none
  PLACEK 0 1
  AT 0 0 0 0
  RET 0
end
entry 1
