; `places` comes first.
;
; $ x10p asm no_places.asm no_places.x10
; status 1: asm: line 5 Order
int 7
