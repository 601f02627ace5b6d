# docs/site: all pages as HTML, whose links lead to pages, headings and files that are there.
top="$(cd "$(dirname "$0")/../.." && pwd)"
source "$(dirname "$0")/common"

does 2 "" .. "$top/docs/site"
if ! python3 -c 'import markdown' 2>/dev/null; then
    does 2 "" "docs/site: Python's package markdown is missing (Debian: python3-markdown)" "$top/docs/site" site
    echo "skipped: pages as HTML, since Python has no package markdown"
    exit $wrong
fi
"$top/docs/site" site >.out || fail "it told $(cat .out)"
grep -q '^[0-9]* pages, [0-9]* files$' .out || fail "it printed $(cat .out)"
for page in index docs/PROGRAM docs/tutorial/index; do
    [ -s "site/$page.html" ] || fail "there is no site/$page.html"
done
grep -q '<h[12] id="limits">' site/docs/*.html || fail "no page has the heading Limits"
grep -q '<details><summary>' site/index.html || fail "no page has a list of all pages"
grep -q '"docs/PROGRAM.html#' site/search.js || fail "the search knows no heading of docs/PROGRAM"
# a link that leads nowhere is told, and the status is 1
mkdir -p other/docs
cp "$top/docs/site" other/docs/site
printf '# One\n\n[two](docs/TWO.md#here), [none](NONE.md), [one](#one), [far](https://example.org/)\n' >other/README.md
printf '# Two\n\n## There\n\n## There\n\n[second](#there-1), [up](../README.md#one)\n' >other/docs/TWO.md
does 1 "README.md: docs/TWO.md#here: no such heading
README.md: NONE.md: no such file
2 pages, 0 files" "" other/docs/site other/site
exit $wrong
