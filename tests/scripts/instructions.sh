# The tables of docs/INSTRUCTIONS.md: they are what docs/make writes from the table of operations and their rules.
top="$(cd "$(dirname "$0")/../.." && pwd)"
source "$(dirname "$0")/common"

"$top/docs/make" --compare ||
    fail "docs/INSTRUCTIONS.md isn't what docs/make writes: call it, and look at what changed"
exit $wrong
