#!/usr/bin/env bash
# Copies the program and what goes with it below a folder, or removes them from there.
# Usage: install.sh PROGRAM FOLDER, or install.sh --remove FOLDER
set -eu

# Copies files below share/btest, with the paths that they have here, so that what they say of each other stays true.
share() {
    local file mode
    for file in "$@"; do
        mode=644
        [ ! -x "$file" ] || mode=755
        install -D -m "$mode" "$file" "$to/share/btest/$file"
    done
}

# The man page, with the version that the sources keep in one place.
man_page() {
    local page=$to/$1
    install -d "${page%/*}"
    {
        cat docs/btest.1
        printf '.Sh VERSION\n%s\n' "$(<VERSION)"
    } | gzip -9n >"$page"
    chmod 644 "$page"
}

# Removes files below share/btest, and each folder there that is empty then. What someone else put there stays.
unshare() {
    local file
    for file in "$@"; do
        rm -f "$to/share/btest/$file"
    done
    find "$to/share/btest" -depth -type d -name __pycache__ -exec rm -rf {} + 2>/dev/null || true
    find "$to/share/btest" -depth -type d -empty -delete 2>/dev/null || true
}

program=
[ "$1" = --remove ] || program=$(realpath "$1")
[ -z "$program" ] || mkdir -p "$2"
to=$(realpath "$2")
cd "$(dirname "$0")/.."
completion=share/bash-completion/completions/btest
page=share/man/man1/btest.1.gz
files=()
for file in VERSION LICEN[CS]E* COPYING* docs/GUIDE.md docs/OPERATOR.md docs/*.png examples/* tools/* tools/btest_tools/*.py tools/btest_tools/*/*.py; do
    [ ! -f "$file" ] || files+=("$file")
done

if [ -n "$program" ]; then
    install -D -m 755 "$program" "$to/bin/btest"
    install -D -m 644 scripts/package/completion.bash "$to/$completion"
    man_page "$page"
    share "${files[@]}"
else
    rm -f "$to/bin/btest" "$to/$completion" "$to/$page"
    unshare "${files[@]}"
fi
