; Where two ways meet, only what is known on both is known: here the one that IFHERE goes on, and its label.
;
; $ x10p verify home_on_one_way.x10
; status 1: verify: Home 0 1
places 1
class int
int 0
func 3 0 int gref:0
  IFHERE 0 @on
on:
  GOPEN 2 0
  GET 2 2 0
  RET 2
end
func 1 0 none
  RET 0
end
entry 1
