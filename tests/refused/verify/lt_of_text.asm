; LT asks for Ints: a text where a number is asked for.
;
; $ x10p verify lt_of_text.x10
; status 1: verify: Kind 0 1
places 1
text "a"
func 1 0 none
TEXTK 0 0
LT 0 0 0
RET 0
end
func 1 0 none
RET 0
end
entry 1
