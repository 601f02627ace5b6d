# The table of folders in tests/README.md: each folder is in one row, with as many cases as the row says, or more.
tests="$(cd "$(dirname "$0")/.." && pwd)"
source "$(dirname "$0")/common"

python3 - "$tests" <<'PY' || wrong=1
import re, sys
from pathlib import Path
tests = Path(sys.argv[1])
status, named = 0, []
for cells, least in re.findall(r"(?m)^\| (`\w+`(?:, `\w+`)*) \| .* \| (\d+) \|$", (tests / "README.md").read_text(encoding="utf-8")):
    row = re.findall(r"\w+", cells)
    named += row
    count = sum(it.suffix in (".asm", ".hex", ".md", ".sh") for folder in row for it in (tests / folder).rglob("*"))
    if count < int(least):
        print(f"tests/README.md: {count} cases in {cells}, and not {least}")
        status = 1
found = sorted(it.name for it in tests.iterdir() if it.is_dir() and it.name != "__pycache__")
if sorted(named) != found:
    print(f"tests/README.md has the folders {sorted(named)}, and these are there: {found}")
    status = 1
sys.exit(status)
PY
exit $wrong
