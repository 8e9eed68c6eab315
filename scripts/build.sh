#!/usr/bin/env bash
# Leaves the proved program, and proves it where it isn't there or a source has changed since.
set -eu
cd "$(dirname "$0")/.."
source scripts/common.sh

if is_current; then
    echo "The proved program is there: $PROGRAM"
    exit 0
fi
need_rt
begun=$SECONDS
python3 -B scripts/build.py
echo "The proved program is there after $(minutes_since "$begun"): $PROGRAM"
