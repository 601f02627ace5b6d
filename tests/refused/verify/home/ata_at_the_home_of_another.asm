; The activity begins at the home of register 1, and is given register 0. Put right: async_of_any_reference_put_right.asm.
;
; $ x10p verify ata_at_the_home_of_another.x10
; status 1: verify: Home 3 1
places 2
class int
class gref:0
class place
int 3
int 7
; reads the object of a reference whose home is here
func 3 0 int here:0
  GOPEN 1 0
  GET 2 1 0
  RET 2
end
; prints it
func 2 0 none here:0
  GOPEN 1 0
  GET 1 1 0
  PRINT 1
  RET 0
end
; makes an object and a reference to it
func 2 0 here:0
  INTK 0 0
  NEW 0 0 0
  GNEW 1 0
  RET 1
end
; what the student wrote
func 6 1 none gref:0 gref:0
  HOME 3 1
  ATA 0 3 1
  RET 0
end
; main
func 5 0 none
  INTK 0 1
  NEW 1 0 0
  GNEW 2 1
  MOVE 3 2
  PLACEK 4 1
  ATA 2 4 3
  ASYNC 2 3
  RET 0
end
entry 4
