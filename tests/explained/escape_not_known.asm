; An escape that isn't known.
;
; $ x10p asm --explain escape_not_known.asm escape_not_known.x10
; status 1: asm: line 9 Text
; > escape_not_known.asm:9:12: Text: text "seven\teight"
; >                                             ^^
; > A backslash stands before a quote, a backslash or an n alone: \", \\ and \n.
places 1
text "seven\teight"
func 1 0 none
TEXTK 0 0
PRINT 0
RET 0
end
entry 0
