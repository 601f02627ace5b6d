; The number of places is looked at before any thread is started.
;
; $ x10p run places.x10 --threads --places 2
; status 1: places
; $ x10p run places.x10 --threads --places 2 --explain
; status 1: places
; > The module asks for 3 places at least; --places gave 2.
; $ x10p run places.x10 --threads
; 2: 3
; $ x10p run places.x10 --places 64 --threads
; 2: 64
places 3
func 1 0 none
  COUNT 0
  PRINT 0
  RET 0
end
; main
func 1 0 none
  FINB
  PLACEK 0 2
  ATA 0 0 0
  FINE
  RET 0
end
entry 1
