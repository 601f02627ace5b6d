; DIV asks for two Ints: the dividend is a text.
;
; $ x10p verify div_of_a_text.x10
; status 1: verify: Kind 0 0
places 1
func 2 0 none int text
DIV 0 1 0 1
RET 0
end
func 1 0 none
RET 0
end
entry 1
