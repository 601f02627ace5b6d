; A text of 65,535 bytes, each of them a line feed.
;
; $ x10p verify longest_text.x10
; verified 1 functions, entry bound 1
places 1
text "{{65535 * \n}}"
func 1 0 none
RET 0
end
entry 0
