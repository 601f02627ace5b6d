; The listing for people of a text has its labels: those that stand before an instruction, and the one of the instruction to
; which a jump goes.
;
; $ x10p list --verbose labels_for_people.asm
; places 1
; ; int 0
; int 3
; ; int 1
; int 1
; ; function 0, at most 32 steps
; func 2 1 none
; ; 0: no register is set; at most 32 steps left; int 0 is 3
; INTK 0 0
; ; 1: r0 int; at most 31 steps left; int 1 is 1
; INTK 1 1
; ; 2: r0 int, r1 int; at most 30 steps left
; LOOP 0 9
; ; 3, `turn`: r0 int, r1 int; at most 29 steps left; instruction 6 is `out`
; JZ 0 6
; ; 4: r0 int, r1 int; at most 28 steps left
; SUB 0 0 1
; ; 5: r0 int, r1 int; at most 27 steps left; instruction 3 is `turn`
; ENDL 0 3
; ; 6, `out`, `end`: r0 int, r1 int; at most 2 steps left
; PRINT 0
; ; 7: r0 int, r1 int; at most 1 step left
; RET 0
; end
; ; a run begins with function 0
; entry 0
places 1
int 3
int 1
func 2 1 none
INTK 0 0
INTK 1 1
LOOP 0 9
turn:
JZ 0 @out
SUB 0 0 1
ENDL 0 @turn
out:
end:
PRINT 0
RET 0
end
entry 0
