; The listing for people says of each instruction whether it is inside an atomic region: from the one after ATOMB to the
; ATOME.
;
; $ x10p list --verbose region_for_people.x10
; version 2
; places 1
; ; int 0
; int 7
; ; function 0, at most 7 steps
; func 1 1 none
; ; 0: no register is set; at most 7 steps left; int 0 is 7
; INTK 0 0
; ; 1: r0 int; at most 6 steps left
; ATOMB
; ; 2: r0 int; at most 5 steps left; inside an atomic region
; LOOP 0 1
; ; 3: r0 int; at most 4 steps left; inside an atomic region
; PRINT 0
; ; 4: r0 int; at most 3 steps left; inside an atomic region
; ENDL 0 3
; ; 5: r0 int; at most 2 steps left; inside an atomic region
; ATOME
; ; 6: r0 int; at most 1 step left
; RET 0
; end
; ; a run begins with function 0
; entry 0
version 2
places 1
int 7
func 1 1 none
INTK 0 0
ATOMB
LOOP 0 1
PRINT 0
ENDL 0 3
ATOME
RET 0
end
entry 0
