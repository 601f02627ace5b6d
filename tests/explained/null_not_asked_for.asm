; An object that may be null, where an object is asked for: the repair, and the line that wrote it.
;
; $ x10p check null_not_asked_for.asm
; Kind, function 0, instruction 1: GET 1 0 0
; line 14: GET 1 0 0
; GET asks that r0 is an object, obj:c of some class c; r0 is opt:0.
; r0 was written last in line 13: NULL 0 0
; It may be null. Put `IFOBJ 0 0 @LABEL` before it, which goes to a label where it is.
; status 1: verify: Kind 0 1
places 1
class int
func 2 0 none
NULL 0 0
GET 1 0 0
RET 0
end
entry 0
