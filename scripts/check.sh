#!/usr/bin/env bash
# Proves one crate, and those below it if they changed. With --profile it prints where the crate's time goes, and with --weaken which
# proof refuses each weaker clause of it.
# Usage: check.sh [--profile] CRATE
#        check.sh --weaken CRATE|all [WORD..]
set -eu
cd "$(dirname "$0")/.."
source scripts/common.sh
target=check
case "$1" in
--profile | --weaken)
    target=${1#--}
    shift
    ;;
esac
[ "$target ${1-}" = "weaken all" ] || need_crate "$target" "${1-}"
need_rt
case "$target" in
profile) exec python3 -B scripts/profile-crate.py "$1" ;;
weaken) exec python3 -B scripts/weaken.py "$@" ;;
esac
cd "crates/$1"
exec rt check
