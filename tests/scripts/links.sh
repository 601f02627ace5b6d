# The links of all pages: each leads to a file or folder that is there, and to a heading that its page has.
top="$(cd "$(dirname "$0")/../.." && pwd)"
source "$(dirname "$0")/common"

# prints a line for each broken link
python3 - "$top" <<'PY' || wrong=1
import os, re, sys
from pathlib import Path
top = Path(sys.argv[1])
FENCED = r"(?ms)^```.*?^```$"
LINK = r"\]\(([^()\s]+)\)"

def pages():
    for folder, below, files in os.walk(top):
        below[:] = sorted(it for it in below if it not in (".git", "out", "target"))
        yield from (Path(folder, it) for it in sorted(files) if it.endswith(".md"))

def without(pattern, text):
    """The text with blanks for what the pattern finds, its lines kept."""
    return re.sub(pattern, lambda found: re.sub(r"[^\n]", " ", found[0]), text)

def anchors(page):
    """The headings of a page as a browser names them: in small letters, with hyphens for blanks, without other signs."""
    seen = {}
    for heading in re.findall(r"(?m)^#+ +(.*?) *$", without(FENCED, page.read_text(encoding="utf-8"))):
        heading = re.sub(r"\[(.*?)\]\(.*?\)", r"\1", heading)
        name = re.sub(r"[^\w -]", "", heading.lower()).replace(" ", "-")
        seen[name] = seen.get(name, -1) + 1
        yield f"{name}-{seen[name]}" if seen[name] else name

def broken(page, link):
    """What is wrong with a link of a page, if anything."""
    if re.match(r"[a-z]+:", link):
        return ""
    path, _, heading = link.partition("#")
    target = page.parent / path if path else page
    if not target.exists():
        return "no such file"
    if heading and (target.suffix != ".md" or heading not in set(anchors(target))):
        return "no such heading"
    return ""

status = 0
for page in pages():
    text = without(r"`[^`\n]*`", without(FENCED, page.read_text(encoding="utf-8")))
    for found in re.finditer(LINK, text):
        if why := broken(page, found[1]):
            line = text.count("\n", 0, found.start()) + 1
            print(f"{page.relative_to(top)}:{line}: {found[1]}: {why}")
            status = 1
sys.exit(status)
PY
exit $wrong
