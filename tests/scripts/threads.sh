# A thread that can't be started: 64 want more memory for their stacks than there is. The workers that were started end,
# nothing is printed, and without threads the run goes as ever.
source "$(dirname "$0")/common"
prints 7 >seven.asm
x10p asm seven.asm seven.x10
(
    ulimit -v 100000
    does 2 "" "x10p: thread" x10p run seven.x10 --threads --places 64
    does 2 "" "x10p: thread
With --threads each place has a thread of its own, here 64 beside the program's, and the system started fewer." \
        x10p run seven.x10 --threads --places 64 --explain
    does 0 "0: 7" "" x10p run seven.x10 --places 64
    exit $wrong
) || wrong=1
exit $wrong
