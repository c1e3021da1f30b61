#!/bin/bash
# Nivoplet reference simulator: builds, runs the self-test, and compares a few
# cards with results worked out by hand. The cards, the expected texts and the
# digests are made here without the simulator.
set -u
cd "$(dirname "$0")" || exit 2
make --silent all || exit 2

work=$(mktemp -d) || exit 2
trap 'rm -rf "$work"' EXIT
failures=0

report() { # NAME GOOD(0 or 1)
    if [ "$2" = 1 ]; then echo "ok   $1"; else echo "FAIL $1"; failures=$((failures + 1)); fi
}

same() { # NAME EXPECTED GOT
    if [ "$2" = "$3" ]; then
        report "$1" 1
    else
        report "$1" 0
        diff <(echo "$2") <(echo "$3") | sed 's/^/     /'
    fi
}

# ---- cards by hand -----------------------------------------------------------

fresh() { # the usual empty card; data start 256, four words
    code_start=0 data_start=256 dpc=0 pc=4 limit=10
    gpr=() spr=() code=() data=(0 0 0 0)
    local i
    for i in {0..31}; do gpr[i]=0; spr[i]=0; done
}

le32() { # each number as four bytes, in the escapes of printf
    local v
    for v; do
        printf '\\x%02x\\x%02x\\x%02x\\x%02x' $((v & 255)) $((v >> 8 & 255)) \
            $((v >> 16 & 255)) $((v >> 24 & 255))
    done
}

card() { # writes the card to the file
    printf '%b' "SND\\x01\\x00\\x00\\x00\\x00$(le32 $code_start ${#code[@]} $data_start ${#data[@]} \
        $dpc $pc $limit "${gpr[@]}" "${spr[@]}" "${code[@]}" ${data[@]+"${data[@]}"})" > "$1"
}

file() { # NAME, then 32 places: prints "NAME" and each value
    printf '%s' "$1"; shift
    printf ' %08X' "$@"
    echo
}

state() { # the register lines of a dump
    printf 'dpc %08X pc %08X\n' "$dpc" "$pc"
    file gpr "${gpr[@]}"
    file spr "${spr[@]}"
}

verdict() { # NAME EXPECTED, for the card as it stands
    card "$work/card"
    same "$1" "$2" "$(./simulate verdict "$work/card")"
}

explained() { # NAME EXPECTED, the second line too, for the card as it stands
    card "$work/card"
    same "$1" "$2" "$(./simulate explain "$work/card")"
}

# 64-bit FNV-1a over words; shell arithmetic is modulo 2^64.
digest() {
    local h=$((0xcbf29ce484222325)) v i
    for v; do
        for i in 0 8 16 24; do
            h=$(((h ^ (v >> i & 255)) * 0x100000001b3))
        done
    done
    printf '%016X' $h
}

# ---- the self-test -----------------------------------------------------------

if ./simulate selftest > "$work/selftest"; then good=1; else good=0; fi
grep FAIL "$work/selftest"
report "self-test: $(tail -n 1 "$work/selftest")" $good

# ---- the whole case of document 01 -------------------------------------------

fresh
code=(0x2401FFFC 0x8C220008 0)
verdict "the whole case" "violation 26 step 1 at 00000004 word 8C220008"
same "the whole case, from standard input" "violation 26 step 1 at 00000004 word 8C220008" \
    "$(./simulate verdict < "$work/card")"

explained "the whole case, explained" "violation 26 step 1 at 00000004 word 8C220008
because r1 from step 0 at 00000000 word 2401FFFC"
cp "$work/card" "$work/whole"
for i in {0..4095}; do memory[i]=0; done
memory[0]=0x2401FFFC memory[1]=0x8C220008
# The VAMP machine loads the word at 4 and goes on over zero words to its limit.
asm=$(digest 1 26 4 8 0 0xFFFFFFFC "${gpr[@]:2}" "${spr[@]}" "${code[@]}" "${data[@]}")
vamp=$(digest 10 0 0 0 40 44 0 0xFFFFFFFC 0x8C220008 "${gpr[@]:3}" "${spr[@]}" "${memory[@]}")
whole_line="violation 26 step 1 at 00000004 word 8C220008 asm $asm vamp $vamp \
because r1 from step 0 at 00000000 word 2401FFFC"

# ---- a loop that sums three words --------------------------------------------
#  0 addi r1,r0,256    4 addi r2,r0,3
#  8 lw r3,r1(0)       C add r4,r4,r3    10 addi r2,r2,-1
# 14 bnez r2,-16      18 addi r1,r1,4 (delay slot)
# 1C sw r1(0),r4      20 beqz r0,-4      24 nop
# 2 steps, three rounds of 5, 1 for the store: 18 steps to address 20.

sum_card() {
    fresh
    code=(0x24010100 0x24020003 0x8C230000 0x00832021 0x2442FFFF 0x1440FFF0 0x24210004
          0xAC240000 0x1000FFFC 0)
    data=(10 20 30 0)
}
sum_card; limit=18
verdict "sum loop, 18 steps" "accepted 18 next 00000020"
sum_card; limit=19
verdict "sum loop, 19 steps" "accepted 19 next 00000024"
sum_card; limit=17
verdict "sum loop, 17 steps" "accepted 17 next 0000001C"
sum_card; limit=1000000
verdict "sum loop, a million steps" "accepted 1000000 next 00000020"

sum_card; limit=18; card "$work/card"
dpc=0x20 pc=0x24 gpr[1]=268 gpr[3]=30 gpr[4]=60
expected="assembler accepted 18
$(state)
word 0000010C 0000003C
vamp stepped 18
masked 0
$(state)
word 0000010C 0000003C"
same "sum loop, dump" "$expected" "$(./simulate dump "$work/card")"

for i in {0..4095}; do memory[i]=0; done
for i in "${!code[@]}"; do memory[i]=${code[i]}; done
memory[64]=10 memory[65]=20 memory[66]=30 memory[67]=60
asm=$(digest 18 0 $dpc $pc "${gpr[@]}" "${spr[@]}" "${code[@]}" 10 20 30 60)
vamp=$(digest 18 0 0 0 $dpc $pc "${gpr[@]}" "${spr[@]}" "${memory[@]}")
sum_line="accepted 18 next 00000020 asm $asm vamp $vamp"
cp "$work/card" "$work/sum"

# ---- jal, jr and their delay slots -------------------------------------------
# 100 jal 8           104 addi r1,r0,1 (delay slot)   108 beqz r0,-4
# 10C addi r2,r1,2    110 jr r31                      114 addi r3,r2,4 (delay slot)
# Order: 100 104 10C 110 114 108 10C, then 108 again.

fresh
code_start=256 data_start=0 dpc=256 pc=260 limit=7
code=(0x0C000008 0x24010001 0x1000FFFC 0x24220002 0x5BE00000 0x24430004)
card "$work/card"
dpc=0x108 pc=0x10C gpr[1]=1 gpr[2]=3 gpr[3]=7 gpr[31]=0x108
expected="assembler accepted 7
$(state)
vamp stepped 7
masked 0
$(state)"
same "jal and jr, dump" "$expected" "$(./simulate dump "$work/card")"

# ---- masked overflow, then a trap --------------------------------------------
# 0 addo r1,r2,r3 (7FFFFFFF + 1)   4 subio r4,r1,1   8 sra r5,r1,r3   C trap 5

over_card() {
    fresh
    code=(0x00430820 0x28240001 0x00232807 0xF8000005)
    gpr[2]=0x7FFFFFFF gpr[3]=1
}
over_card; card "$work/card"; cp "$work/card" "$work/over"
before=$(state)
dpc=12 pc=16 gpr[1]=0x80000000 gpr[4]=0x7FFFFFFF gpr[5]=0xC0000000
expected="assembler violation 24 step 0
$before
vamp stopped 31 cause 00000020 step 3
masked 2
$(state)"
same "masked overflow and trap, dump" "$expected" "$(./simulate dump "$work/card")"

for i in {0..4095}; do memory[i]=0; done
for i in "${!code[@]}"; do memory[i]=${code[i]}; done
vamp=$(digest 3 31 32 2 $dpc $pc "${gpr[@]}" "${spr[@]}" "${memory[@]}")
over_card
asm=$(digest 0 24 0 4 "${gpr[@]}" "${spr[@]}" "${code[@]}" 0 0 0 0)
over_line="violation 24 step 0 at 00000000 word 00430820 asm $asm vamp $vamp"

over_card; spr[0]=64; card "$work/card"
expected="assembler violation 24 step 0
$(state)
vamp stopped 31 cause 00000040 step 0
masked 0
$(state)"
same "unmasked overflow, dump" "$expected" "$(./simulate dump "$work/card")"

# ---- a store into code, a byte load, rfe to a misaligned address --------------
# 0 sw r0(8),r1   4 lb r3,r0(11)   8 nop, becomes addi r2,r0,7   C rfe

fresh
code=(0xAC010008 0x8003000B 0 0xFC000000)
gpr[1]=0x24020007 spr[1]=5 spr[3]=0x20 spr[4]=0x11
card "$work/card"
before=$(state)
dpc=0x11 pc=0x20 gpr[2]=7 gpr[3]=0x24 spr[0]=5
expected="assembler violation 26 step 0
$before
vamp stopped 31 cause 00000004 step 4
masked 0
$(state)
word 00000008 24020007"
same "store into code and rfe, dump" "$expected" "$(./simulate dump "$work/card")"

# ---- MODE, and memory that is not there ---------------------------------------

fresh
code=(0x00200411) gpr[1]=1
verdict "movi2s of 1 to MODE" "violation 27 step 0 at 00000000 word 00200411"
same "movi2s of 1 to MODE, VAMP" "vamp stopped 33 cause 00000000 step 0" \
    "$(./simulate dump "$work/card" | grep vamp)"
fresh
code=(0x8C024000)
verdict "lw at 16384" "violation 26 step 0 at 00000000 word 8C024000"
same "lw at 16384, VAMP" "vamp stopped 32 cause 00000000 step 0" \
    "$(./simulate dump "$work/card" | grep vamp)"

# ---- explanations -------------------------------------------------------------
# The sum loop with its address moved on before each load: 5 steps a round, from 104 to 10C, and 110 is outside.
#  0 addi r1,r0,256    4 addi r2,r0,9     8 addi r1,r1,4
#  C lw r3,r1(0)      10 addi r2,r2,-1   14 bnez r2,-16     18 nop
# Rounds start at the steps 2, 7, 12 and 17; the load of the fourth is step 18.

fresh
code=(0x24010100 0x24020009 0x24210004 0x8C230000 0x2442FFFF 0x1440FFF0 0) limit=100
explained "a load past the data, in a loop" "violation 26 step 18 at 0000000C word 8C230000
because r1 from step 17 at 00000008 word 24210004"

# 100 jal 8           104 nop (delay slot)     108 nop
# 10C jr r31          110 addi r31,r31,2 (delay slot): the link 108 is good, and R31 is 10A for the second jr.
# Order: 100 104 10C 110 108 10C 110, then 10A.

fresh
code_start=256 data_start=0 dpc=256 pc=260
code=(0x0C000008 0 0 0x5BE00000 0x27FF0002)
explained "jr by a link that its delay slot changed" "violation 21 step 7 at 0000010A word -
because dpc from step 5 at 0000010C word 5BE00000, r31 from step 3 at 00000110 word 27FF0002"
fresh
code=(0x58200000 0x24210004) gpr[1]=0x1234
explained "jr by a register of the card" "violation 22 step 2 at 00001234 word -
because dpc from step 0 at 00000000 word 58200000, r1 from card"
fresh
code=(0 0)
explained "past the end of the code" "violation 22 step 2 at 00000008 word -
because dpc ran on"
limit=2
explained "accepted, explained" "accepted 2 next 00000008"
fresh
code=(0x00200411) gpr[1]=1
explained "27, explained" "violation 27 step 0 at 00000000 word 00200411"
limit=1000001
explained "refused, explained" "refused 12"
same "explanations of two cards and of standard input" "refused 12
violation 26 step 1 at 00000004 word 8C220008
because r1 from step 0 at 00000000 word 2401FFFC
violation 26 step 1 at 00000004 word 8C220008
because r1 from step 0 at 00000000 word 2401FFFC" \
    "$(./simulate explain "$work/card" "$work/whole"; ./simulate explain < "$work/whole")"

# ---- what a word touches -------------------------------------------------------

words="8C220008
AC010100
00200411
0C000008
fc000000
04000000
F8000005"
expected="8C220008 reads r1 writes r2
AC010100 reads r0 r1
00200411 reads r1 spr 16 written
0C000008 writes r31
FC000000 return
04000000 23
F8000005"
echo "$words" > "$work/words"
same "touched registers, from a file" "$expected" "$(./simulate touches "$work/words")"
same "touched registers, from standard input without a last newline" "$expected" \
    "$(printf '%s' "$words" | ./simulate touches)"
for line in "" 8C22000 8C2200080 8C22000G "8C220008 "; do
    printf '8C220008\n%s\n' "$line" | ./simulate touches > "$work/touched" 2> /dev/null
    same "status 2 for the line '$line'" 2 $?
done

# ---- refusals -----------------------------------------------------------------

fresh; code=(0); limit=1000001
verdict "limit 1,000,001" "refused 12"
spr[12]=1
verdict "limit 1,000,001 and special register 12" "refused 11"
fresh; code=(0); data_start=0xFFFFFFF0
verdict "data start FFFFFFF0, four words" "refused 9"
fresh; code=(0); data=() data_start=0
verdict "no data, inside the code" "violation 22 step 1 at 00000004 word -"
fresh; code=(0); card "$work/card"
head -c 291 "$work/card" > "$work/short"
same "291 bytes" "refused 2" "$(./simulate dump "$work/short")"

# ---- a bundle -----------------------------------------------------------------

{
    for name in sum short over whole; do
        printf '%b' "$(le32 "$(wc -c < "$work/$name")")"
        cat "$work/$name"
    done
} > "$work/bundle"
same "a bundle of four cards, with digests and an explanation" "$sum_line
refused 2
$over_line
$whole_line" "$(./simulate bundle "$work/bundle")"

# ---- random cards -------------------------------------------------------------

./cards 7 40 > "$work/forty"
./cards 7 20 > "$work/twenty"
if cmp -s <(head -c "$(wc -c < "$work/twenty")" "$work/forty") "$work/twenty"; then good=1; else good=0; fi
report "card i of a seed does not depend on N" $good
same "one line for each card of a bundle" 40 "$(./simulate bundle "$work/forty" | wc -l | tr -d ' ')"
for seed in 7 8; do
    ./cards $seed 5000 > "$work/many"
    ./simulate bundle "$work/many" > "$work/plain"
    if ./simulate fast "$work/many" | cmp -s - "$work/plain"; then good=1; else good=0; fi
    report "the fast checker says and leaves the same on the 5,000 cards of seed $seed" $good
done
if ./cards --stats 7 4000 > "$work/stats"; then good=1; else good=0; fi
report "the two machines agree on every accepted step of 4,000 cards" $good
same "every verdict and VAMP answer occurs" "" \
    "$(grep -E '^(refused|accepted|violation|vamp).* 0$' "$work/stats")"
same "every explanation occurs" "" "$(grep -E '^explained .*( all|slot|register) 0$' "$work/stats")"
same "every explanation of a step occurs late" "21 dpc from card
22 dpc from card" \
    "$(./cards --only h --stats 7 4000 | sed -n 's/^explained \(.*\): at step 100 or later 0,.*/\1/p')"
for bit in 1 2 5 6; do grep -q "^vamp 31 cause bit $bit " "$work/stats" || report "cause bit $bit occurs" 0; done

if [ $failures = 0 ]; then echo "all good"; exit 0; fi
echo "$failures failures"
exit 1
