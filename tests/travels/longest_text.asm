; A text of 65,535 bytes goes to place 1 and comes back.
;
; $ x10p bounds longest_text.x10
; 0 3
; 1 9
; $ x10p run longest_text.x10
; 0: 65535
; 1: 65535
; takes 14 events
places 2
text "{{65535 * a}}"
func 2 0 text text
  TLEN 1 0
  PRINT 1
  RET 0
end
; main
func 3 0 none
  TEXTK 0 0
  PLACEK 1 1
  AT 0 0 1 0
  TLEN 2 0
  PRINT 2
  RET 0
end
entry 1
