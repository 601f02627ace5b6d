; `--log` is for a run with threads, and for a trace or a picture in place of a run; `audit` takes two files.
;
; $ x10p run log.x10 --threads --log log.log
; 0: 7
; $ x10p audit log.x10 log.log
; 0: 7
; $ x10p audit log.asm log.log
; 0: 7
; $ x10p audit log.x10 log.log --json
; {"place":0,"number":7}
; $ x10p run log.x10 --log log.log
; status 3
; $ x10p run log.x10 --threads --log
; status 3
; $ x10p run log.x10 --threads --log log.log --log other.log
; status 3
; $ x10p trace log.x10 --log log.log
; S 0 0 0 0 INTK
; S 0 0 0 1 PRINT
; S 0 0 0 2 RET
; $ x10p draw log.x10 log.svg --log log.log
; $ x10p trace log.x10 --log log.log --places 1
; status 3
; $ x10p trace log.x10 --log log.log --limit 1000000
; status 3
; $ x10p draw log.x10 log.svg --log log.log --schedule rounds
; status 3
; $ x10p draw log.x10 log.svg --log log.log --seed 1
; status 3
; $ x10p trace log.x10 --log
; status 3
; $ x10p list log.x10 --log log.log
; status 3
; $ x10p runs log.x10 --log log.log
; status 3
; $ x10p audit log.x10
; status 3
; $ x10p audit
; status 3
; $ x10p audit log.x10 log.log other.log
; status 3
; $ x10p audit log.x10 log.log --places 1
; status 3
; $ x10p audit log.x10 log.log --threads
; status 3
; $ x10p audit log.x10 log.log --limit 5
; status 3
; $ x10p audit log.x10 log.asm
; status 1: log: line 1 Head
; $ x10p audit log.x10 log.x10 --explain
; status 1: log: line 1 Head
; > log.x10, line 1: a log begins with `x10 log 1`, `image` and 64 digits, and `places` and a number.
; $ x10p run log.x10 --threads --log log.asm
; status 4: file
; $ x10p run log.x10 --threads --log log.x10 --explain
; status 4: file
; > log.x10 is the same file as log.x10.
; $ x10p audit nowhere.x10 log.log
; status 4: file
; $ x10p audit log.x10 nowhere.log
; status 4: file
places 1
int 7
func 1 0 none
INTK 0 0
PRINT 0
RET 0
end
entry 0
