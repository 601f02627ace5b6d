; A text in place of an image: a fault of the verifier is explained with lines of the text.
;
; $ x10p run text_in_place_of_an_image.asm --explain
; status 1: verify: Kind 0 2
; > text_in_place_of_an_image.asm:29:3: Kind, function 0, instruction 2: PRINT 0
; > PRINT asks that r0 is int or text; r0 is place.
; > r0 was written last in line 28: HERE 0
; > Put `PLACEI 0 0` before it, which makes the number of a place.
; $ x10p verify --explain text_in_place_of_an_image.asm
; status 1: verify: Kind 0 2
; > text_in_place_of_an_image.asm:29:3: Kind, function 0, instruction 2: PRINT 0
; > PRINT asks that r0 is int or text; r0 is place.
; > r0 was written last in line 28: HERE 0
; > Put `PLACEI 0 0` before it, which makes the number of a place.
; $ x10p verify --explain=yes text_in_place_of_an_image.x10
; status 1: verify: Kind 0 2
; > Kind, function 0, instruction 2: PRINT 0
; > PRINT asks that r0 is int or text; r0 is place.
; > r0 was written last in instruction 1: HERE 0
; > Put `PLACEI 0 0` before it, which makes the number of a place.
; $ x10p verify --explain=no text_in_place_of_an_image.asm
; status 1: verify: Kind 0 2
places 1
func 1 0 none
  ; the number of this place

  COUNT 0
  HERE 0
  PRINT 0
  RET 0
end
entry 0
