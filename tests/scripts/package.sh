# ci/package: what ./build --prefix lays out, as an archive and as a package of Debian's.
top="$(cd "$(dirname "$0")/../.." && pwd)"
source "$(dirname "$0")/common"
version="$(x10p --version | cut -d ' ' -f 2)"

mkdir -p prefix/{bin,lib,share/zsh/site-functions}
cp "$(command -v x10p)" prefix/bin/x10p
echo completions >prefix/share/zsh/site-functions/_x10p
chmod 600 prefix/share/zsh/site-functions/_x10p
does 2 "" .. "$top/ci/package" prefix
does 2 "" .. "$top/ci/package" nowhere made
"$top/ci/package" prefix made >.out || fail "it told $(cat .out)"
head -n 1 .out | grep -qx "made/burjeeg-$version-linux-x86_64.tar.gz" || fail "it printed $(cat .out)"

# unpacked, the program runs, and everybody may read all
mkdir unpacked
tar -C unpacked -xzf "made/burjeeg-$version-linux-x86_64.tar.gz"
does 0 "0: 7" "" "unpacked/burjeeg-$version/bin/x10p" run "$top/examples/seven.asm"
[ "$(stat -c %a "unpacked/burjeeg-$version/share/zsh/site-functions/_x10p")" = 644 ] || fail "a file can't be read by all"
grep -q "^$version" "unpacked/burjeeg-$version/share/doc/burjeeg/VERSION" || fail "VERSION doesn't begin with $version"
# packed again it has the same bytes
cp "made/burjeeg-$version-linux-x86_64.tar.gz" first.tar.gz
"$top/ci/package" prefix made >.out
same first.tar.gz "made/burjeeg-$version-linux-x86_64.tar.gz"

if ! command -v dpkg-deb >/dev/null; then
    echo "skipped: Debian's package, since there is no dpkg-deb"
    exit $wrong
fi
dpkg-deb -x "made/burjeeg_${version}_amd64.deb" deb || fail "the package can't be unpacked"
does 0 "0: 7" "" deb/usr/bin/x10p run "$top/examples/seven.asm"
[ -f deb/usr/share/zsh/vendor-completions/_x10p ] || fail "the package has no completions for zsh"
[ "$(dpkg-deb -f "made/burjeeg_${version}_amd64.deb" Version)" = "$version" ] || fail "the package has another version"
exit $wrong
