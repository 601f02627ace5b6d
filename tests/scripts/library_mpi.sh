# The program over MPI, with the library in the folder that BURJEEG names: examples at 2, 4 and 8 ranks, long frames, and what ends
# all ranks.
top="$(cd "$(dirname "$0")/../.." && pwd)"
source "$(dirname "$0")/common"
[ -n "${BURJEEG:-}" ] || { echo "skipped: the program over MPI, since BURJEEG names no folder that has the library"; exit 0; }
has mpicc && has mpirun || exit $wrong
strict="-Wall -Wextra -pedantic -Werror -I$top/crates/x10_c/include"

# Open MPI begins as many ranks as it is told, also for root, and a rank that waits lets others go first
export OMPI_ALLOW_RUN_AS_ROOT=1 OMPI_ALLOW_RUN_AS_ROOT_CONFIRM=1 OMPI_MCA_mpi_yield_when_idle=1
export OMPI_MCA_rmaps_base_oversubscribe=1 PRTE_MCA_rmaps_default_mapping_policy=:oversubscribe
# each call of mpirun has a folder of its own for its files: two that begin at once would make one folder, and one of them fail
export TMPDIR="$(mktemp -d)"
trap 'rm -rf "$TMPDIR"' EXIT
mpicc -std=c99 $strict "$top/examples/embed/x10p-mpi.c" "$BURJEEG/libburjeeg.a" -o x10p-mpi || fail "x10p-mpi.c"

# in_ranks RANKS WORDS WHAT: with these words, an image and what follows it, x10p-mpi.c says WHAT, and all ranks end
in_ranks() {
    timeout 30 mpirun -n "$1" ./x10p-mpi $2 >.lines 2>.told
    local status=$?
    [ $status -ne 0 ] && [ $status -ne 124 ] || fail "x10p-mpi.c $2 at $1 ranks: status $status"
    grep -qxF "$3" .told || fail "x10p-mpi.c $2 at $1 ranks doesn't say $3: $(head -c 500 .told)"
}

# agrees NAME RANKS: x10p-mpi.c prints what `x10p run` prints of an example, where the module runs at so many places
agrees() {
    x10p run $1.x10 --places $2 >$1.$2.wanted 2>$1.$2.told || return 0
    mkdir "$TMPDIR/$1.$2"
    TMPDIR="$TMPDIR/$1.$2" timeout 40 mpirun -n $2 ./x10p-mpi $1.x10 >$1.$2.found 2>$1.$2.told ||
        echo "status $? at $2 ranks: $1: $(head -c 500 $1.$2.told)"
    cmp $1.$2.wanted $1.$2.found
}
export -f agrees
for text in "$top"/examples/*.asm; do
    name="$(basename "$text" .asm)"
    # what is refused, and whose lines depend on the order of events
    case $name in *_refused | any_order | finish_guarantees | nested | two_places_away | woken_after_report) continue ;; esac
    x10p asm "$text" $name.x10
    # one that stays at its place is run at 2 ranks alone
    printf "$name %s\n" 2 $(grep -qE '^ *ATA? ' "$text" && echo 4 8)
done | xargs -P 4 -L 1 bash -c 'agrees $0 $1' >.differences 2>&1
[ ! -s .differences ] || fail "x10p-mpi.c: $(head -c 1000 .differences)"

x10p asm "$top/examples/counter_refused.asm" refused.x10
# two places that send each other long frames at once
x10p asm "$top/tests/travels/long_frames_to_and_fro.asm" to_and_fro.x10
does 0 "0: 1" .. timeout 30 mpirun -n 2 ./x10p-mpi to_and_fro.x10
# a frame of 8 MB, and one that is too long: the place stops
for objects in 1048576 1048577; do
    x10p asm "$top/tests/limits/frame_of_${objects}_objects.asm" $objects.x10
done
does 0 "1: 1" .. timeout 30 mpirun -n 2 ./x10p-mpi 1048576.x10
in_ranks 2 1048577.x10 "x10p: stop: Limit 7"
in_ranks 2 refused.x10 "x10p: verify: Home 0 0"
in_ranks 2 fan_out.x10 "x10p: places"
in_ranks 2 nowhere.x10 "x10p: file"
# a rank that sends what is no frame
mpicc -std=c99 $strict "$(dirname "$0")/library_mpi.c" -o no_place || fail "library_mpi.c"
in_ranks 1 "ping_pong.x10 : -n 1 ./no_place" "x10p-mpi: place 0: a frame from place 1 is refused, fault 902"
exit $wrong
