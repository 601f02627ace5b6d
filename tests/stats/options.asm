; What was in a run is told only of `run`, without threads; and not where there was none. So it is with each activity in it.
;
; $ x10p run options.x10 --stats --threads
; status 3
; $ x10p run options.x10 --stats --threads --log a.log
; status 3
; $ x10p trace options.x10 --stats
; status 3
; $ x10p runs options.x10 --stats
; status 3
; $ x10p run options.x10 --verbose
; status 3
; $ x10p run options.x10 --verbose --threads
; status 3
; $ x10p run options.x10 --stats --verbose --threads
; status 3
; $ x10p runs options.x10 --verbose
; status 3
; $ x10p run options.x10 --stats --verbose --places 1
; status 1: places
; $ x10p run options.x10 --stats --places 1
; status 1: places
; $ x10p run options.x10 --stats --explain --places 1
; status 1: places
; > The module asks for 2 places at least; --places gave 1.
; $ x10p run options.x10
; 0: 7
places 2
int 7
func 1 0 none
  INTK 0 0
  PRINT 0
  RET 0
end
entry 0
