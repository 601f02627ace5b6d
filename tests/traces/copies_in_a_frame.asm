; The trace shows what goes along: an object, its text, and its rail of three bytes; each is there once, though two fields
; hold the text.
;
; $ x10p trace copies_in_a_frame.x10
; S 0 0 1 0 TEXTK
; S 0 0 1 1 MOVE
; S 0 0 1 2 INTK
; S 0 0 1 3 RAIL
; S 0 0 1 4 NEW
; S 0 0 1 5 PLACEK
; S 0 0 1 6 ATA
; P 0 0 1 02010000000100000000000000000001000000010000000100000001050000000000000002616200000003000000000003030000000003000000000400000000
; D 0 1
; S 1 0 0 0 RET
; P 1 1 0 02040001000000000000000200000000000000000000000100000000
; D 1 0
; S 0 0 1 7 RET
; $ x10p run copies_in_a_frame.x10
; takes 11 events
places 2
class text text rail
int 3
text "ab"
func 1 0 none obj:0
  RET 0
end
func 4 0 none
  TEXTK 0 0
  MOVE 1 0
  INTK 2 0
  RAIL 2 2 @short
  NEW 0 0 0
  PLACEK 3 1
  ATA 0 3 0
short:
  RET 0
end
entry 1
