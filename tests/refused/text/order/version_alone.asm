; After the version comes `places`.
;
; $ x10p asm version_alone.asm version.x10
; status 1: asm: line 6 Order
version 2
int 7
