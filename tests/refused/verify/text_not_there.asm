; There is one text, number 0.
;
; $ x10p verify text_not_there.x10
; status 1: verify: Index 0 0
places 1
text "a"
func 1 0 none
TEXTK 0 1
RET 0
end
func 1 0 none
RET 0
end
entry 1
