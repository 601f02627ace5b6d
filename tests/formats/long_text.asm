; A comment of the listing for people shows at most 64 bytes of a text, and no part of a character.
;
; $ x10p list --verbose long_text.x10
; places 1
; ; text 0
; text "012345678901234567890123456789012345678901234567890123456789abcé and more"
; ; function 0, at most 3 steps
; func 1 0 none
; ; 0: no register is set; at most 3 steps left; text 0 is "012345678901234567890123456789012345678901234567890123456789abc" and so on, 74 bytes
; TEXTK 0 0
; ; 1: r0 text; at most 2 steps left
; PRINT 0
; ; 2: r0 text; at most 1 step left
; RET 0
; end
; ; a run begins with function 0
; entry 0
places 1
text "012345678901234567890123456789012345678901234567890123456789abcé and more"
func 1 0 none
  TEXTK 0 0
  PRINT 0
  RET 0
end
entry 0
