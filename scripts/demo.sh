#!/usr/bin/env bash
# Runs the program on the files of examples/ and shows what it prints. Where the proved program isn't there, it is built and run
# without its proofs, and a line every ten seconds says how far that is.
set -eu
cd "$(dirname "$0")/.."
source scripts/common.sh

board='controller.chain controller.nets processor.bsd octal-buffer.bsd port.bsd'
commands=(
    "chain four-parts.chain"
    "chain part-twice.chain"
    "device octal-buffer.bsd"
    "ident controller.chain processor.bsd octal-buffer.bsd port.bsd"
    "cover $board"
    "svf $board"
    "diagnose 4 good.log $board"
    "diagnose 4 shorted.log $board"
    "batch 4 three-boards.logs $board"
    "walk $board"
    "groups three-shorted.log $board"
    "make 100"
)

show_board() {
    local file
    for file in controller.chain controller.nets; do
        echo "--- examples/$file"
        cat "examples/$file"
    done
}

run_proved() {
    local program command status
    program=$(realpath "$PROGRAM")
    for command in "${commands[@]}"; do
        echo "\$ btest $command"
        status=0
        # A command is its words.
        # shellcheck disable=SC2086
        (cd examples && "$program" $command) || status=$?
        [ "$status" = 0 ] || echo "(exit status $status)"
    done
}

# A case for each command: an empty file, with the words beside it.
write_cases() {
    local number
    for number in "${!commands[@]}"; do
        : >"$1/$(printf %02d "$number")"
        tr ' ' '\n' <<<"${commands[$number]}" >"$1/$(printf %02d "$number").args"
    done
}

# The names of the processes below one.
names_below() {
    local child children
    # A process may end while it is looked at.
    children=$(cat /proc/"$1"/task/*/children 2>/dev/null) || true
    for child in $children; do
        cat "/proc/$child/comm" 2>/dev/null || true
        names_below "$child"
    done
}

# What the build by that process is at, after what it was at before.
phase() {
    case $(names_below "$1"),$2 in
        *ld.lld*) echo linking ;;
        *clang*) echo compiling ;;
        *,checking) echo checking ;;
        *) echo running ;;
    esac
}

show_line() {
    local command
    case $1 in
        "== "*)
            command=${1#== }
            echo "\$ btest ${commands[10#$command]}"
            ;;
        case=*status=0*) ;;
        case=*status=*) [[ $1 =~ \ status=([0-9]+) ]] && echo "(exit status ${BASH_REMATCH[1]})" ;;
        cases=*) ;;
        *) echo "$1" ;;
    esac
}

# Keeps the program that the unproved build made, which is there only while the commands are run: the tool below calls it.
keep_program() {
    local made
    made=$(find "$1/built" -type f -perm -u+x -name program | head -n 1)
    [ -z "$made" ] || cp "$made" "$1/btest"
}

# One build, and a run for each command.
run_unproved() {
    local room=$1 cases=$1/cases data=() file line='' part begun=$SECONDS build stage=checking is_built=
    mkdir "$cases" "$room/built"
    write_cases "$cases"
    for file in examples/*; do
        [ -f "$file" ] && data+=(--data "${file##*/}=../../$file")
    done
    # One step of the interpreter, which would run each command a second time: the compiled program checks the same.
    exec 3< <(cd crates/btest && TMPDIR=$room/built exec rt try --steps 1 --cases "$cases" "${data[@]}" 2>&1)
    build=$!
    while true; do
        if IFS= read -r -t 10 part <&3; then
            line=$line$part
            if [ -z "$is_built" ] && [[ $line = "== "* ]]; then
                keep_program "$room"
                echo "--- built after $((SECONDS - begun)) seconds"
                is_built=yes
            fi
            show_line "$line"
            line=
        elif [ $? -gt 128 ]; then
            # Ten seconds without a whole line.
            line=$line$part
            stage=$(phase "$build" "$stage")
            [ -n "$is_built" ] || printf '%7d s: %s\n' $((SECONDS - begun)) "$stage"
        else
            break
        fi
    done
    wait "$build"
}

# What the tool for failing boards makes of two logs. It calls this program.
run_tool() {
    local program log
    program=$(realpath "$1")
    command -v python3 >/dev/null || return 0
    for log in shorted.log two-faults.log; do
        echo "\$ python3 tools/failing-nets.py $log $board"
        # shellcheck disable=SC2086
        (cd examples && python3 -B ../tools/failing-nets.py --btest "$program" "$log" $board)
    done
    run_station "$program"
}

# A station that tests two boards, which are simulated: a good one, and one on which D0 and D1 are shorted.
run_station() (
    program=$1
    if ! command -v openocd >/dev/null; then
        echo '--- OpenOCD is not there, so the station of tools/station.py is not shown'
        return
    fi
    line=$(mktemp -d)
    trap 'rm -rf "$line"' EXIT
    station=$(realpath tools/station.py)
    simulated=$(realpath tools/simulated-chain.py)
    cd examples
    # shellcheck disable=SC2086
    python3 -B "$simulated" --next and:D0:D1 0 good $board >"$line/port" &
    until [ -s "$line/port" ] || ! kill -0 $! 2>/dev/null; do sleep 0.1; done
    printf 'adapter driver remote_bitbang\nremote_bitbang host 127.0.0.1\nremote_bitbang port %s\n' \
        "$(sed 's/.* //' "$line/port")" >"$line/simulated.cfg"
    echo "--- a station: two simulated boards, the second with D0 and D1 shorted"
    echo "\$ python3 tools/station.py prepare controller --chain controller.chain --nets controller.nets --cable simulated.cfg ${board#* * }"
    # shellcheck disable=SC2086
    python3 -B "$station" prepare "$line/controller" --btest "$program" --chain controller.chain --nets controller.nets \
        --cable "$line/simulated.cfg" ${board#* * }
    for serial in 2211-0417 2211-0418; do
        echo "\$ python3 tools/station.py test controller $serial"
        python3 -B "$station" test "$line/controller" "$serial" --btest "$program" || echo "(exit status $?)"
    done
    echo '$ python3 tools/station.py show controller'
    python3 -B "$station" show "$line/controller"
    wait
)

show_board
if is_current; then
    echo '--- the proved program on these files'
    run_proved
    run_tool "$PROGRAM"
else
    need_rt
    echo '--- building the program without its proofs: one to three minutes'
    room=$(mktemp -d)
    trap 'rm -rf "$room"' EXIT
    run_unproved "$room"
    if [ -f "$room/btest" ]; then
        run_tool "$room/btest"
    else
        echo "--- what the build made is not where it was looked for, so tools/failing-nets.py is not shown: 'make build' and then 'make demo' shows it"
    fi
    echo "--- This run was checked for overflow, bad indices and the like, and not proved. 'make build' proves the program."
fi
