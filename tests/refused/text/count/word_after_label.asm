; Nothing follows a label. The function is missing too: Count comes before Order.
;
; $ x10p asm word_after_label.asm word_after_label.x10
; status 1: asm: line 5 Count
a: b
