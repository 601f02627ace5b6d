; A tab is no space: it is a part of the word.
;
; $ x10p asm tab.asm other.x10
; status 1: asm: line 7 Word
places 1
func 1 0 none
{{U+0009}}RET 0
end
entry 0
