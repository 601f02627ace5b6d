; The version comes too late.
;
; $ x10p asm --explain version_after_places.asm version.x10
; status 1: asm: line 9 Order
; > version_after_places.asm:9:1: Order: version 2
; >                                      ^^^^^^^
; > `version` stands once, before all other lines.
places 1
version 2
int 7
func 1 0 none
INTK 0 0
PRINT 0
RET 0
end
entry 0
