# Sets the text of the program `dump` in a form to read: registers by name, only those that are not 0, and changed words, four
# to a row. For `bin/dump --long`; POSIX awk. A line that is none of these stays as it is.

BEGIN {
    count = split("SR ESR ECA EPC EDPC EData RM IEEEf FCC PTO PTL EMODE", special, " ")
    for (i = 1; i <= count; i++) name["spr", i - 1] = special[i]
    name["spr", 16] = "MODE"
    for (i = 0; i < 32; i++) {
        name["gpr", i] = "R" i
        if (!(("spr", i) in name)) name["spr", i] = "SPR" i
    }
}

# One entry of a row of four.
function entry(text) {
    row = row (held ? "  " : "    ") text
    if (++held == 4) flush()
}

function flush() {
    if (held) print row
    row = ""
    held = 0
}

# The registers of a line that are not 0; the first word of a line is no register.
function registers(what, width, i, shown) {
    for (i = 2; i <= NF; i++) {
        if ($i ~ /^0+$/) continue
        if (!shown++) print "  " what " registers that are not 0"
        entry(sprintf("%-" width "s %s", name[$1, i - 2], $i))
    }
    flush()
    if (!shown) print "  " what " registers: all 0"
}

# Ends what is shown of a machine: its changed words come last, where there are any.
function words_end() {
    flush()
    if (machine && !words) print "  changed words: none"
    words = 0
}

$1 == "assembler" {
    machine = 1
    sub(/^assembler /, "")
    sub(/ step /, " at step ")
    print "assembler machine: " $0
    next
}
$1 == "vamp" {
    words_end()
    machine = 1
    sub(/^vamp /, "")
    sub(/ step /, " before step ")
    print "VAMP machine: " $0
    next
}
$1 == "masked" { print "  steps that reported a cause: " $2; next }
$1 == "dpc" { print "  DPC " $2 "  PC' " $4; next }
$1 == "gpr" { registers("general", 3); next }
$1 == "spr" { registers("special", 5); next }
$1 == "word" {
    if (!words++) print "  changed words, each after its address"
    entry($2 " " $3)
    next
}
{ print }
END { words_end() }
