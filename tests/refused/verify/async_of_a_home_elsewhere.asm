; IFHERE goes on where the home is here, and to its label where it may not be: only the first ASYNC has such a home.
;
; $ x10p verify async_of_a_home_elsewhere.x10
; status 1: verify: Home 1 3
places 1
class
func 1 0 none here:0
RET 0
end
func 1 0 none gref:0
IFHERE 0 @other
ASYNC 0 0
RET 0
other:
ASYNC 0 0
RET 0
end
func 1 0 none
RET 0
end
entry 2
