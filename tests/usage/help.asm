; Help goes to standard output, with status 0.
;
; $ x10p --help
; Runs programs that are spread over places, after it has proved that they can't go wrong
; ..
; Usage: x10p <COMMAND>
; ..
;   4  a file can't be read, or the output can't be written
; $ x10p -h
; ..
;   4  a file can't be read, or the output can't be written
; $ x10p help
; ..
;   4  a file can't be read, or the output can't be written
; $ x10p help --help
; Runs programs that are spread over places, after it has proved that they can't go wrong
; ..
; $ x10p help -h
; ..
;   4  a file can't be read, or the output can't be written
; $ x10p help run
; ..
;   4  a file can't be read, or the output can't be written
; $ x10p run --help
; ..
;   4  a file can't be read, or the output can't be written
places 1
func 1 0 none
RET 0
end
entry 0
