; A run over fewer places than the module asks for.
;
; $ x10p run --explain places.x10 --places 2
; status 1: places
; > The module asks for 3 places at least; --places gave 2.
; $ x10p trace places.x10 --places 1 --explain
; status 1: places
; > The module asks for 3 places at least; --places gave 1.
; $ x10p run places.x10
; 0: 7
places 3
int 7
func 1 0 none
INTK 0 0
PRINT 0
RET 0
end
entry 0
