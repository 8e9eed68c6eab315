#!/usr/bin/env bash
# Times the program on large inputs. Usage: bench.sh PROGRAM
set -eu
program=$(realpath "$1")
here=$(realpath "$0")
work=$(mktemp -d)
trap 'rm -rf "$work"' EXIT
cd "$work"

# The BSDL text of a device: its name, its ports and their pins, the number of cells, and its entries from standard input.
bsdl() {
    local name=$1 ports=$2 map=$3 cells=$4
    cat <<TEXT
entity $name is
generic (PHYSICAL_PIN_MAP : string := "P");
port (TDI, TMS, TCK : in bit; TDO : out bit; $ports);
use STD_1149_1_1994.all;
attribute PIN_MAP of $name : entity is PHYSICAL_PIN_MAP;
constant P : PIN_MAP_STRING := "TDI:T1, TDO:T2, TMS:T3, TCK:T4," &
$map;
attribute TAP_SCAN_IN of TDI : signal is true;
attribute TAP_SCAN_OUT of TDO : signal is true;
attribute TAP_SCAN_MODE of TMS : signal is true;
attribute TAP_SCAN_CLOCK of TCK : signal is (10.0e6, BOTH);
attribute INSTRUCTION_LENGTH of $name : entity is 2;
attribute INSTRUCTION_OPCODE of $name : entity is "BYPASS (11), EXTEST (00), SAMPLE (10)";
attribute INSTRUCTION_CAPTURE of $name : entity is "01";
attribute BOUNDARY_LENGTH of $name : entity is $cells;
attribute BOUNDARY_REGISTER of $name : entity is
TEXT
    sed -e 's/.*/"&,"\&/' -e '$s/,"&$/";/'
    echo "end $name;"
}

numbers() { seq -s, "$1" "$2"; }

for i in $(seq 1 255); do echo "BYPASS U$i 255"; done >wide.chain
{ yes '# a comment of some length, as a person would write it' | head -c 3900000; echo; yes '' | head -c 200000; echo 'BYPASS U1 4'; } >comments.chain
printf '%4194304s' '' | tr ' ' 'x' >one-line.chain

# One device with 65,000 outputs.
awk 'BEGIN { for (i = 1; i <= 65000; i++) print i - 1 " (BC_1, Q(" i "), output2, X)" }' |
    bsdl BIG 'Q : out bit_vector(1 to 65000)' "\"Q:($(numbers 1 65000))\"" 65000 >big.bsd
echo 'DEVICE U1 BIG -' >big.chain
awk 'BEGIN { for (i = 1; i <= 16382; i++) print "NET N" i " U1." i }' >big.nets

# 255 devices of 77 cells: 32 outputs in four groups, 32 inputs, and 8 pins on a bus that all devices share.
awk 'BEGIN {
    for (c = 0; c < 5; c++) print c " (BC_1, *, control, 1)"
    for (i = 0; i < 32; i++) print i + 5 " (BC_1, Q(" i "), output3, X, " int(i / 8) ", 1, Z)"
    for (i = 0; i < 32; i++) print i + 37 " (BC_1, D(" i "), input, X)"
    for (i = 0; i < 8; i++) print i + 69 " (BC_7, B(" i "), bidir, X, 4, 1, Z)" }' |
    bsdl GEN 'Q : out bit_vector(0 to 31); D : in bit_vector(0 to 31); B : inout bit_vector(0 to 7)' \
        "\"Q:($(numbers 1 32)), D:($(numbers 33 64)), B:($(numbers 65 72))\"" 77 >bus.bsd
awk 'BEGIN { for (i = 1; i <= 255; i++) print "DEVICE U" i " GEN -" }' >bus.chain
awk 'BEGIN {
    k = 255
    for (i = 1; i <= k; i++) for (b = 0; b < 32; b++) print "NET R" i "_" b " U" i "." b + 1 " U" (i % k) + 1 "." b + 33
    for (b = 0; b < 8; b++) { printf "NET B" b; for (i = 1; i <= k; i++) printf " U" i "." b + 65; print "" } }' >bus.nets

# A device with one group of so many outputs, and as many inputs.
grid() {
    local name=$1 pins=$2
    awk -v pins="$pins" 'BEGIN {
        print "0 (BC_1, *, control, 1)"
        for (i = 0; i < pins; i++) print i + 1 " (BC_1, Q(" i "), output3, X, 0, 1, Z)"
        for (i = 0; i < pins; i++) print i + pins + 1 " (BC_1, D(" i "), input, X)" }' |
        bsdl "$name" "Q : out bit_vector(0 to $((pins - 1))); D : in bit_vector(0 to $((pins - 1)))" \
            "\"Q:($(numbers 1 "$pins")), D:($(numbers $((pins + 1)) $((2 * pins))))\"" $((2 * pins + 1))
}

# 254 devices of 129 cells: 16,256 nets, each covered.
grid MESH 64 >mesh.bsd
awk 'BEGIN { for (i = 1; i <= 254; i++) print "DEVICE U" i " MESH -" }' >mesh.chain
awk 'BEGIN { k = 254; for (i = 1; i <= k; i++) for (b = 0; b < 64; b++) print "NET R" i "_" b " U" i "." b + 1 " U" (i % k) + 1 "." b + 65 }' >mesh.nets

# 254 devices of 257 cells: 16,256 nets, each driven by two devices.
grid TWIN 128 >twin.bsd
awk 'BEGIN { for (i = 1; i <= 254; i++) print "DEVICE U" i " TWIN -" }' >twin.chain
awk 'BEGIN {
    for (i = 1; i <= 127; i++) for (b = 1; b <= 128; b++) {
        j = i + 127
        print "NET R" i "_" b " U" i "." b " U" j "." b " U" i "." b + 128 " U" j "." b + 128 } }' >twin.nets

# 250 devices of 17 cells: 8 outputs, each with a control of its own, all 2,000 on one net, and an input on it.
awk 'BEGIN {
    for (i = 0; i < 8; i++) print 2 * i " (BC_1, *, control, 1), " 2 * i + 1 " (BC_1, Q(" i "), output3, X, " 2 * i ", 1, Z)"
    print "16 (BC_1, D, input, X)" }' |
    bsdl LONG 'Q : out bit_vector(0 to 7); D : in bit' "\"Q:($(numbers 1 8)), D:9\"" 17 >long.bsd
awk 'BEGIN { for (i = 1; i <= 250; i++) print "DEVICE U" i " LONG -" }' >long.chain
awk 'BEGIN { printf "NET B"; for (i = 1; i <= 250; i++) for (b = 1; b <= 9; b++) printf " U" i "." b; print "" }' >long.nets

# A board for response logs: so many parts, each with drivers of a bus, which all parts share and which has a pass for each driver, and
# with as many outputs as inputs, each a net from one part to the next.
logged() {
    local name=$1 parts=$2 bus=$3 pins=$4
    awk -v bus="$bus" -v pins="$pins" 'BEGIN {
        for (i = 0; i < bus; i++) print i " (BC_1, *, control, 1)"
        for (i = 0; i < bus; i++) print bus + i " (BC_1, B(" i "), output3, X, " i ", 1, Z)"
        for (i = 0; i < pins; i++) print 2 * bus + i " (BC_1, Q(" i "), output2, X)"
        for (i = 0; i < pins; i++) print 2 * bus + pins + i " (BC_1, D(" i "), input, X)"
        print 2 * bus + 2 * pins " (BC_1, R, input, X)" }' |
        bsdl LOGGED "B : out bit_vector(0 to $((bus - 1))); Q : out bit_vector(0 to $((pins - 1))); D : in bit_vector(0 to $((pins - 1))); R : in bit" \
            "\"B:($(numbers 1 "$bus")), Q:($(numbers $((bus + 1)) $((bus + pins)))), \" & \"D:($(numbers $((bus + pins + 1)) $((bus + 2 * pins)))), R:$((bus + 2 * pins + 1))\"" \
            $((2 * bus + 2 * pins + 1)) >"$name.bsd"
    awk -v parts="$parts" 'BEGIN { for (p = 0; p < parts; p++) print "DEVICE U" p " LOGGED -" }' >"$name.chain"
    awk -v parts="$parts" -v bus="$bus" -v pins="$pins" 'BEGIN {
        for (p = 0; p < parts; p++) for (i = 0; i < pins; i++)
            print "NET N" p "_" i " U" p "." bus + 1 + i " U" (p + 1) % parts "." bus + pins + 1 + i
        printf "NET BUS"
        for (p = 0; p < parts; p++) for (i = 1; i <= bus; i++) printf " U" p "." i
        print " U0." bus + 2 * pins + 1 }' >"$name.nets"
}

# What one pass of such a board compares, a row for each bit of the codes. The net with the code DEAD stays at 0.
rows() {
    local parts=$1 bus=$2 pins=$3 width=$4 dead=$5
    awk -v parts="$parts" -v bus="$bus" -v pins="$pins" -v width="$width" -v dead="$dead" 'function add(bit) {
        digit = 2 * digit + bit
        if (--left == 0) { row = row substr("0123456789ABCDEF", digit + 1, 1); digit = 0; left = 4 }
    }
    BEGIN {
        size = 2 * bus + 2 * pins + 1
        for (j = 0; j < width; j++) {
            row = ""; digit = 0; left = (parts * size - 1) % 4 + 1
            for (p = 0; p < parts; p++) for (cell = size - 1; cell >= 0; cell--) {
                i = cell - 2 * bus - pins
                code = 0
                if (i == pins && p == 0) code = parts * pins + 1
                if (i >= 0 && i < pins) code = (p + parts - 1) % parts * pins + i + 1
                add(code == dead ? 0 : int(code / 2 ^ j) % 2)
            }
            print row
        }
    }'
}

# So many copies of a file.
copies() {
    awk -v count="$1" '{ lines[NR] = $0 } END { for (k = 0; k < count; k++) for (i = 1; i <= NR; i++) print lines[i] }' "$2"
}

# 8,001 covered nets and 1,120 passes. In a log of 66 MB one net stays at 0.
logged log 16 70 500
rows 16 70 500 13 4095 >log.rows
copies 1120 log.rows >log.log

# 1,001 covered nets and 12 passes. Of 1,100 logs, 67 MB, one in ten has a net that stays at 0.
logged day 4 3 250
rows 4 3 250 10 0 >day.rows
rows 4 3 250 10 511 >day.dead
copies 12 day.rows >day.good
copies 12 day.dead >day.bad
for i in $(seq 1 1100); do
    echo "BOARD B$i"
    if [ $((i % 10)) = 0 ]; then cat day.bad; else cat day.good; fi
done >day.logs

# 512 controls, each with a driver of a bus and 15 outputs, and in each of 16 parts one output that always drives. In the log the first
# net that is always driven differs, in the last row alone, so that its shorts with all others are tried pass by pass.
awk 'BEGIN {
    for (i = 0; i < 32; i++) print i " (BC_1, *, control, 1)"
    for (i = 0; i < 32; i++) print i + 32 " (BC_1, B(" i "), output3, X, " i ", 1, Z)"
    for (i = 0; i < 480; i++) print i + 64 " (BC_1, Q(" i "), output3, X, " int(i / 15) ", 1, Z)"
    print "544 (BC_1, A, output2, X)"
    for (i = 0; i < 481; i++) print i + 545 " (BC_1, D(" i "), input, X)"
    print "1026 (BC_1, R, input, X)" }' |
    bsdl LOT 'B : out bit_vector(0 to 31); Q : out bit_vector(0 to 479); A : out bit; D : in bit_vector(0 to 480); R : in bit' \
        "\"B:($(numbers 1 32)), Q:($(numbers 33 512)), A:513, D:($(numbers 514 994)), R:995\"" 1027 >lot.bsd
awk 'BEGIN { for (p = 0; p < 16; p++) print "DEVICE U" p " LOT -" }' >lot.chain
awk 'BEGIN {
    printf "NET BUS"
    for (p = 0; p < 16; p++) for (i = 1; i <= 32; i++) printf " U" p "." i
    print " U0.995"
    for (p = 0; p < 16; p++) print "NET A" p " U" p ".513 U" (p + 1) % 16 ".994"
    for (p = 0; p < 16; p++) for (i = 0; i < 480; i++) print "NET Q" p "_" i " U" p "." i + 33 " U" (p + 1) % 16 "." i + 514 }' >lot.nets
awk 'function add(bit) {
        digit = 2 * digit + bit
        if (--left == 0) { row = row substr("0123456789ABCDEF", digit + 1, 1); digit = 0; left = 4 }
    }
    function made(j, flip) {
        row = ""; digit = 0; left = 4
        for (p = 0; p < 16; p++) for (cell = 1026; cell >= 0; cell--) {
            from = (p + 15) % 16
            code = 0
            if (cell == 1026 && p == 0) code = 1
            if (cell == 1025) code = from + 2
            if (cell >= 545 && cell < 1025) code = from * 480 + cell - 545 + 18
            add(code == 2 && flip ? 1 - int(code / 2 ^ j) % 2 : int(code / 2 ^ j) % 2)
        }
        return row
    }
    BEGIN {
        for (j = 0; j < 13; j++) rows[j] = made(j, 0)
        for (k = 1; k < 512 * 13; k++) print rows[(k - 1) % 13]
        print made(12, 1)
    }' >lot.log

# Boards whose nets have several drivers each.
python3 "$(dirname "$here")/shapes.py" .

# The user time of a run, which is little changed by what else the machine does.
figure() {
    local name=$1 user
    shift
    user=$(
        TIMEFORMAT=%U
        { time "$program" "$@" >out.txt 2>notes.txt || true; } 2>&1
    )
    printf '%-34s %8s s  %9d bytes out\n' "$name" "$user" "$(stat -c %s out.txt)"
}

figure 'chain, 255 parts of 255 bits' chain wide.chain
figure 'chain, 4 MB of comments' chain comments.chain
figure 'chain, one line of 4 MiB' chain one-line.chain
figure 'device, 65,000 cells' device big.bsd
figure 'chain, a device of 65,000 cells' chain big.chain big.bsd
figure 'cover, a device of 65,000 cells' cover big.chain big.nets big.bsd
figure 'svf, a device of 65,000 cells' svf big.chain big.nets big.bsd
figure 'cover, 255 devices on a bus' cover bus.chain bus.nets bus.bsd
figure 'svf, 255 devices on a bus' svf bus.chain bus.nets bus.bsd
figure 'make, the same board, not written' make 255
figure 'ident, the same chain' ident bus.chain bus.bsd
figure 'cover, 16,256 covered nets' cover mesh.chain mesh.nets mesh.bsd
figure 'svf, 16,256 covered nets' svf mesh.chain mesh.nets mesh.bsd
figure 'cover, 16,256 nets of two drivers' cover twin.chain twin.nets twin.bsd
figure 'svf, 16,256 nets of two drivers' svf twin.chain twin.nets twin.bsd
figure 'svf, a bus of 2,000 drivers' svf long.chain long.nets long.bsd
for shape in eight sixty-four many own quarter linked woven pairs added; do
    # Where a text has more than a gigabyte, its time is that of writing.
    [ "$shape" = sixty-four ] || figure "cover, shape $shape" cover "$shape".{chain,nets,bsd}
    [ "$shape" = woven ] || figure "svf, shape $shape" svf "$shape".{chain,nets,bsd}
done

# The elapsed time of a run with one worker and with four.
workers() {
    local name=$1 command=$2 count seconds
    shift 2
    for count in 1 4; do
        seconds=$(
            TIMEFORMAT=%R
            { time "$program" "$command" "$count" "$@" >out.txt 2>notes.txt || true; } 2>&1
        )
        printf '%-34s %8s s  by %d workers, elapsed\n' "$name" "$seconds" "$count"
    done
}

figure 'diagnose, 66 MB, 8,001 nets' diagnose 1 log.log log.chain log.nets log.bsd
figure 'diagnose, 30,000 long candidates' diagnose 1 lot.log lot.chain lot.nets lot.bsd
workers 'diagnose, 30,000 long candidates' diagnose lot.log lot.chain lot.nets lot.bsd
figure 'batch, 1,100 boards, 67 MB' batch 1 day.logs day.chain day.nets day.bsd
workers 'batch, 1,100 boards, 67 MB' batch day.logs day.chain day.nets day.bsd
