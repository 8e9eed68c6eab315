# Plays the test of a board with OpenOCD and writes its response log.
#
#   openocd -f CABLE.cfg -c {set CHAIN chain.svf; set IDENT ident.svf; set SVF board.svf; set LOG board.log} -f log.tcl
#
# CABLE.cfg has the adapter with its speed; it declares no TAP. The SVF texts are those of `btest chain`, `btest ident` and `btest svf`
# (or `btest walk`). IDENT may be left out. Names with blanks, brackets or other signs of Tcl are given by variables of the environment
# instead: CHAIN, IDENT, SVF and LOG. A log of that name is deleted first, so that none is there if this one isn't written. A chain that
# isn't sound, and a part with another code, are found before any pin is driven. In the test OpenOCD goes on when a comparison fails, and
# prints the bits that came back; if it prints none, the compared bits are the expected ones. Each comparison of data makes a row.
#
# The status is 0 if the board passes. It is 1 if the board fails, and there is a log. It is 1 without a log if the board was not tested
# to its end.

# The bits of a field as a row of so many bits.
proc row_of {size field} {
    set digits [expr {($size + 3) / 4}]
    regsub -all {[^0-9A-F]} [string toupper $field] "" field
    string range [string repeat 0 $digits]$field end-[expr {$digits - 1}] end
}

# The compared statements of an SVF text, each as its kind, its length, its expected row, and its last line.
proc compared {text} {
    set found {}
    set line 1
    foreach statement [split $text ";"] {
        incr line [regexp -all "\n" $statement]
        if {[regexp {(SIR|SDR) +([0-9]+).*TDO +\(([^)]*)\)} $statement -> kind size expected]} {
            lappend found [list $kind $size [row_of $size $expected] $line]
        }
    }
    return $found
}

proc content {name} {
    set file [open $name]
    set text [read $file]
    close $file
    return $text
}

proc stop {why} {
    echo "$why; there is no log"
    shutdown error
}

foreach name {CHAIN IDENT SVF LOG} {
    if {![info exists $name] && [info exists ::env($name)]} { set $name $::env($name) }
    if {![info exists $name] && $name ne "IDENT"} {
        stop "$name isn't set: openocd -f CABLE.cfg -c {set CHAIN chain.svf; set SVF board.svf; set LOG board.log} -f log.tcl"
    }
}
set texts [list $CHAIN $SVF]
if {[info exists IDENT]} { lappend texts $IDENT }
if {[file isfile $LOG] && [catch {file delete $LOG}] || [file isdirectory $LOG]} { stop "$LOG can't be written" }
foreach name $texts {
    if {![file isfile $name] || ![file readable $name]} { stop "$name can't be read" }
}
gdb_port disabled      ;# no ports are opened, so several stations can run on one computer
tcl_port disabled
telnet_port disabled
proc jtag_init {} {}   ;# the first text tests the chain; nothing else moves it
init
if {[catch {svf -quiet $CHAIN}]} { stop "$CHAIN failed, so the scan chain isn't sound" }
if {[info exists IDENT] && [catch {svf -quiet $IDENT}]} { stop "$IDENT failed, so a part is missing or has another code" }
if {[catch {capture {svf -quiet -ignore_error $SVF}} played]} { stop "$SVF was not played" }
foreach {all line read} [regexp -all -inline {check error at line ([0-9]+)[^=]*READ = 0x([0-9a-f]+)} $played] {
    set came_back($line) $read
}

set rows ""
set failed 0
foreach statement [compared [content $SVF]] {
    lassign $statement kind size row line
    if {[info exists came_back($line)]} {
        incr failed
        if {$kind eq "SIR"} { stop "$SVF line $line failed, so the scan chain isn't sound" }
        set row [row_of $size $came_back($line)]
    }
    if {$kind eq "SDR"} { append rows $row "\n" }
}
if {$failed && [catch {svf -quiet $CHAIN}]} { stop "$CHAIN failed after the test, so the scan chain broke during it" }
if {[catch {
    set file [open $LOG w]
    puts -nonewline $file $rows
    flush $file
    close $file
}]} {
    if {[file isfile $LOG]} { file delete $LOG }
    stop "$LOG can't be written"
}
echo "$LOG is written; comparisons that failed: $failed"
if {$failed} { shutdown error }
shutdown
