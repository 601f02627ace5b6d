; Some of the events: those before the first one that is shown are made, and those behind the last one aren't.
;
; $ x10p trace from_and_to.x10 --from 5 --to 6
; S 0 0 0 2 PRINT
; S 0 0 0 3 ENDL
; $ x10p trace from_and_to.x10 --from 9
; S 0 0 0 4 RET
; $ x10p trace from_and_to.x10 --from 10
; $ x10p trace from_and_to.x10 --to 1
; S 0 0 0 0 INTK
; $ x10p trace from_and_to.x10 --from 8 --limit 8
; S 0 0 0 3 ENDL
; status 2: limit
; $ x10p trace from_and_to.x10 --from 8 --limit 7
; status 2: limit
; $ x10p trace from_and_to.x10 --from 9 --to 12 --limit 9
; S 0 0 0 4 RET
; $ x10p trace from_and_to.x10 --from 8 --to 8 --limit 8
; S 0 0 0 3 ENDL
; $ x10p trace from_and_to.x10 --from 6 --to 5
; status 3
; $ x10p trace from_and_to.x10 --from 0
; status 3
; $ x10p run from_and_to.x10 --from 1
; status 3
places 1
int 7
func 1 1 none
INTK 0 0
LOOP 0 3
PRINT 0
ENDL 0 2
RET 0
end
entry 0
