#!/usr/bin/env bash
# Runs a program in Python, or says in one line that Python is missing. Usage: python.sh PROGRAM WORD..
set -eu
cd "$(dirname "$0")/.."
source scripts/common.sh
need_python
exec python3 -B "$@"
