; The options of `run`. Three events end this program; with fewer it stops at the limit, and what was
; printed until then stands.
;
; $ x10p run options.x10
; 0: 7
; $ x10p run options.x10 --places 64
; 0: 7
; $ x10p run options.x10 --limit 3
; 0: 7
; $ x10p run options.x10 --limit 2
; 0: 7
; status 2: limit
; $ x10p run --limit 1 options.x10
; status 2: limit
; $ x10p run options.x10 --limit=1000000000
; 0: 7
; $ x10p bounds options.x10
; 0 3
; $ x10p verify options.x10
; verified 1 functions, entry bound 3
places 1
int 7
func 1 0 none
INTK 0 0
PRINT 0
RET 0
end
entry 0
