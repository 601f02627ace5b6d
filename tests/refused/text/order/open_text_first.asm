; A line that is out of order and has an open quote: Order comes before Text.
;
; $ x10p asm open_text_first.asm open_text_first.x10
; status 1: asm: line 5 Order
text "a
