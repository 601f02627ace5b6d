; The word of a number and that of a text look alike, and the verifier knows which of them a PRINT prints: after each
; way on which the register can have got it. Main calls function 2 and 3 for both ways.
;
; $ x10p verify texts_and_numbers.x10
; verified 7 functions, entry bound 63
; $ x10p run texts_and_numbers.x10
; 0: t
; 0: 7
; 0: 7
; 0: given
; 0: given
; 0: t
; 0: 7
; 0: given
; 0: t
; 0: t
; 0: 7
; 0: given
; 0: 0
places 1
int 7
int 0
text "t"
text "given"
; 0: a text and then a number in one register; no way leads to the last PRINT, of either
func 3 0 none
  TEXTK 2 0
  PRINT 2
  INTK 2 0
  PRINT 2
  RET 0
  PRINT 2
  RET 0
end
; 1: parameters, and a text that is moved
func 3 0 none int text
  PRINT 0
  PRINT 1
  MOVE 2 1
  PRINT 2
  RET 0
end
; 2: two ways meet, each with a text
func 3 0 none int text
  JZ 0 @other
  TEXTK 2 0
  JMP @print
other:
  MOVE 2 1
print:
  PRINT 2
  RET 0
end
; 3: two ways meet, each with a number
func 3 0 none int text
  JZ 0 @other
  INTK 2 0
  JMP @print
other:
  MOVE 2 0
print:
  PRINT 2
  RET 0
end
; 4: a text in a loop, another one from the second turn on, and a number behind it
func 3 1 none int text
  LOOP 0 3
again:
  PRINT 1
  TEXTK 1 0
  ENDL 0 @again
  PRINT 0
  RET 0
end
; 5: no way leads to the PRINT
func 3 0 none int text
  JMP @over
  PRINT 1
over:
  RET 0
end
; main
func 2 0 none
  CALL 0 0 0
  INTK 0 0
  TEXTK 1 1
  CALL 0 0 1
  CALL 0 0 2
  CALL 0 0 3
  CALL 0 0 4
  CALL 0 0 5
  INTK 0 1
  CALL 0 0 2
  CALL 0 0 3
  RET 0
end
entry 6
