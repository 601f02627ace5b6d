; An activity that ATA starts at its own place goes there in a frame too, which takes along 1,048,576 objects at most. This list has
; one more. The run stops at the ATA by limit 7, with threads as in one.
;
; $ x10p run one_object_too_many.x10 --threads
; status 2: stop: Limit 7
; $ x10p run one_object_too_many.x10 --limit 3000000
; status 2: stop: Limit 7
places 1
class opt:0
func 1 0 none opt:0
  RET 0
end
; main
func 2 2 none
  NULL 0 0
  LOOP 0 1024
outer:
  LOOP 1 1024
again:
  NEW 0 0 0
  ENDL 1 @again
  ENDL 0 @outer
  NEW 0 0 0
  HERE 1
  ATA 0 1 0
  RET 0
end
entry 1
