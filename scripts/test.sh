#!/usr/bin/env bash
# The gate, with a word before it on how long it takes and one behind it on how long it took.
set -eu
cd "$(dirname "$0")/.."
source scripts/common.sh
need_rt
echo "The gate: every proof, every edit that must fail, every test and program. README.md says how long it takes from nothing."
echo 'What passed is kept, and a later run proves what changed since. The last line but one is N passed, M failed.'
begun=$SECONDS status=0
bash .ci/run || status=$?
echo "The gate took $(minutes_since "$begun")."
exit "$status"
