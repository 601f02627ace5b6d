; A line of every sort: all kinds, the ends of the range of ints, escapes, and in a text what needs no
; escape. The verifier refuses the module, since it has no register 255.
;
; canonical
;
; $ x10p verify every_line.x10
; status 1: verify: Index 0 0
; $ x10p bounds every_line.x10
; 0 3
; 1 1
places 64
class
class int place text rail obj:0 opt:1 gref:1
int 0
int -9223372036854775808
int 9223372036854775807
text ""
text "a \"b\" \\ c\ndé	;"
func 3 8 here:1 gref:0 here:1 opt:0
INTK 255 4294967295
ADD 0 1 2
RET 2
end
func 1 0 none
RET 0
end
entry 1
