# The page of first steps, command by command: each prints what the page says.
source "$(dirname "$0")/common"
page="$(dirname "$0")/../../docs/FIRST-STEPS.md"

# tried COMMAND PROMISED: a command, and what the page says that it prints
tried() {
    found=$(bash -c "$1" 2>&1)
    [ "$found" = "$2" ] || fail "$1: it printed
$found"
}

# each block of the page: a file, whose first line names it, or commands
awk '/^```/ { inside = !inside; blocks += inside; next } inside { print > ("block." 1000 + blocks) }' "$page"
for block in block.*; do
    first=$(head -n 1 "$block")
    case $first in
    '; '*.asm)
        cp "$block" "${first#; }"
        continue
        ;;
    esac
    command=
    promised=
    while IFS= read -r line; do
        case $line in
        '$ '*)
            [ -z "$command" ] || tried "$command" "$promised"
            command=${line#\$ }
            promised=
            ;;
        *) promised=${promised:+$promised$'\n'}$line ;;
        esac
    done <"$block"
    tried "$command" "$promised"
done
[ -s places.svg ] || fail "no picture"
exit $wrong
