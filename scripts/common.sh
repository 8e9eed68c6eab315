# shellcheck shell=bash
# What the scripts share. They are run at the top of the repository.
PROGRAM=crates/btest/out/btest

# Whether the proved program is there and no source is newer.
is_current() {
    [ -x "$PROGRAM" ] && [ -z "$(find crates crates.txt HANDLES \( -name '*.rt' -o -name '*.antt' -o -name crates.txt -o -name HANDLES \) -newer "$PROGRAM" -print -quit)" ]
}

# Says in one line what is missing, and ends.
need_python() {
    command -v python3 >/dev/null && return
    echo 'The command python3 is missing: this needs Python 3.9 or later.' >&2
    exit 1
}

need_rt() {
    if ! command -v rt >/dev/null; then
        echo "The command rt is missing: unpack the Rattle kit and put its bin folder on the PATH. README.md names the kit's version." >&2
        exit 1
    fi
    need_python # in which rt is written
}

# Ends unless the second word is a crate. The first is the target of make that asks.
need_crate() {
    if [ -z "$2" ]; then
        echo "make $1 CRATE=NAME, with a name of crates.txt" >&2
    elif ! sed -n 's/:.*//p' crates.txt | grep -Fqx -e "$2"; then
        echo "make $1: crates.txt has no crate $2" >&2
    else
        return 0
    fi
    exit 2
}

# How many minutes a script has run since a moment of SECONDS, and on how many processors.
minutes_since() {
    local spent=$((SECONDS - $1))
    printf '%d:%02d minutes on %d processors' $((spent / 60)) $((spent % 60)) "$(nproc)"
}
