# The library for C, in the folder that BURJEEG names and ci/library has made: its header, its calls with null pointers, small
# buffers and refused memory, and the programs of examples/embed, which do what the program does.
top="$(cd "$(dirname "$0")/../.." && pwd)"
source "$(dirname "$0")/common"
embed="$top/examples/embed"
include="$top/crates/x10_c/include"
[ -n "${BURJEEG:-}" ] || { echo "skipped: the library, since BURJEEG names no folder that has it"; exit 0; }

for text in seven remote_counter fan_out moved ping_pong; do
    x10p asm "$top/examples/$text.asm" $text.x10
done
x10p asm "$top/examples/counter_refused.asm" refused.x10
head -c 40 seven.x10 >short.x10

# as NAME COMMAND ..: the command does with each image what `x10p run` does
as() {
    local name=$1 image
    shift
    for image in seven remote_counter fan_out refused short; do
        x10p run $image.x10 >.wanted 2>.wanted_told
        local wanted=$?
        "$@" $image.x10 >.found 2>.found_told
        local found=$?
        [ $found -eq $wanted ] || fail "$name $image: status $found, and not $wanted"
        same .wanted .found
        same .wanted_told .found_told
    done
}

# refuses EXAMPLE IMAGE: with each request for memory refused in turn, the example prints what it prints else or ends with a
# status of its own, and gives back what it took
refuses() {
    local number status
    ./$1 $2.x10 >.wanted 2>.told
    for ((number = 1; number < 500; number++)); do
        REFUSED=$number timeout 10 ./$1.refusing $2.x10 >.found 2>.told
        status=$?
        case $status in
        0) same .wanted .found ;;
        [1-4]) ;;
        8) break ;;
        *) fail "$1.c with $2 ends with status $status where request $number for memory is refused" ;;
        esac
    done
    [ $number -gt 10 ] && [ $status -eq 8 ] || fail "$1.c with $2 asks $number times for memory"
}

# only what the header declares is there for others
if has nm; then
    found="$(nm -D --defined-only "$BURJEEG/libburjeeg.so" | awk '{ print $3 }' | sort | tr '\n' ' ')"
    wanted="$(grep -oE 'burjeeg_[a-z_]+\(' "$include/burjeeg.h" | tr -d '(' | sort -u | tr '\n' ' ')"
    [ "$found" = "$wanted" ] || fail "libburjeeg.so has $found, and the header $wanted"
    found="$(nm -g --defined-only "$BURJEEG/libburjeeg.a" | awk 'NF == 3 { print $3 }' | sort | tr '\n' ' ')"
    [ "$found" = "${wanted}rattle_alloc rattle_dealloc rattle_realloc " ] || fail "libburjeeg.a has $found"
fi

strict="-Wall -Wextra -pedantic -Werror -I$include"
if has gcc; then
    printf '#include <burjeeg.h>\n' >alone.c
    gcc -std=c99 $strict -fsyntax-only alone.c || fail "the header as C"
    ! has g++ || g++ $strict -fsyntax-only -x c++ alone.c || fail "the header as C++"
    gcc -std=c99 $strict "$embed/run_image.c" "$BURJEEG/libburjeeg.a" -o run_image || fail "run_image.c"
    as run_image.c ./run_image
    gcc -std=c99 $strict "$(dirname "$0")/library_calls.c" "$BURJEEG/libburjeeg.a" -o calls \
        -Wl,--wrap=malloc,--wrap=realloc,--wrap=free || fail "library_calls.c"
    ./calls remote_counter.x10 "$top/examples/remote_counter.asm" "$top/examples/counter_refused.asm" || fail "library_calls"
    gcc -std=c99 $strict "$(dirname "$0")/library_handles.c" "$BURJEEG/libburjeeg.a" -o handles \
        -Wl,--wrap=malloc,--wrap=realloc,--wrap=free || fail "library_handles.c"
    gcc -std=c99 $strict "$embed/two_places.c" "$BURJEEG/libburjeeg.a" -o two_places || fail "two_places.c"
    for image in remote_counter moved ping_pong; do
        ./handles $image.x10 refused.x10 || fail "library_handles $image"
        x10p run $image.x10 --places 2 >wanted
        ./two_places $image.x10 >found || fail "two_places.c $image"
        same wanted found
    done
    for example in run_image two_places; do
        gcc -std=c99 $strict "$embed/$example.c" "$(dirname "$0")/library_refusing.c" "$BURJEEG/libburjeeg.a" -o $example.refusing \
            -Wl,--wrap=malloc,--wrap=realloc,--wrap=free || fail "$example.c"
    done
    refuses run_image fan_out
    refuses run_image refused
    KEEPS=1 refuses two_places ping_pong
    if has valgrind; then
        for image in fan_out refused; do
            ./run_image $image.x10 >/dev/null 2>&1
            wanted=$?
            valgrind -q --error-exitcode=9 --leak-check=full ./run_image $image.x10 >/dev/null 2>.told
            [ $? -eq $wanted ] || fail "run_image.c has a leak or a wrong access with $image: $(head -c 500 .told)"
        done
        valgrind -q --error-exitcode=9 --leak-check=full --trace-children=yes ./two_places ping_pong.x10 >/dev/null 2>.told ||
            fail "two_places.c has a leak or a wrong access: $(head -c 500 .told)"
    fi
fi

if has python3; then
    BURJEEG_LIBRARY="$BURJEEG/libburjeeg.so" python3 -B "$embed/tour.py" "$top/examples" >tour || fail "tour.py"
    x10p check "$top/examples/counter_refused.asm" >.report 2>.told
    x10p asm "$top/examples/remote_counter.asm" tour.x10
    {
        echo "$(wc -c <tour.x10) bytes"
        echo "bounds $(x10p bounds tour.x10 | cut -d ' ' -f 2 | tr '\n' ' ' | sed 's/ $//')"
        x10p run tour.x10
        cat .told .report
        x10p run tour.x10 --limit 1 >.lines 2>.stop
        echo "$(cat .stop), status 2, $(wc -c <.lines) bytes until then"
        # the places in turn are the rounds of a trace: frames are delivered in the same order, with the same bytes
        x10p trace tour.x10 | awk '$1 == "P" { bytes[$2] = $5 } $1 == "D" { print "frame " $2 " to place " $3 ": " bytes[$2] }'
        x10p run tour.x10
        x10p run tour.x10 | cut -d ' ' -f 2 | tr '\n' ' ' | sed 's/ $/\n/'
        echo "x10p: frame: Version"
        echo "it was closed"
    } >wanted
    same wanted tour || diff wanted tour
    BURJEEG_LIBRARY="$BURJEEG/libburjeeg.so" PYTHONPATH="$embed" python3 -B "$(dirname "$0")/library_handles.py" tour.x10 ||
        fail "library_handles.py"
fi

if has cargo; then
    BURJEEG_LIB="$BURJEEG" cargo build -q --offline --locked --manifest-path "$embed/rust/Cargo.toml" --target-dir target || fail "rust/"
    as rust/ ./target/debug/run_image
fi
exit $wrong
