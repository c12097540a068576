# asm, dis and check of texts of 128 and 1,024 instructions, the start of the process included.
ln -s "$(readlink -f "$1")" "$work/sblog"
PATH=$work:$PATH
cd "$work"

text() { # a text of $1 instructions, of seven forms, that the verifier accepts
    echo "mov r0, 0"
    i=0
    while [ $i -lt $((($1 - 2) / 7)) ]; do
        echo "ldxdw r3, [r1+$((i % 8 * 8))]"
        echo "ldxdw r4, [r2+$((i % 4 * 8))]"
        echo "jsle r3, r4, +1"
        echo "add r4, -2147483648"
        echo "xor32 r3, r4"
        echo "stxdw [r2+$((i % 4 * 8))], r4"
        echo "stxdw [r10-$((i % 64 * 8 + 8))], r3"
        i=$((i + 1))
    done
    i=$((i * 7 + 2))
    while [ $i -lt "$1" ]; do
        echo "add r0, 1"
        i=$((i + 1))
    done
    echo "exit"
}

for n in 128 1024; do
    text $n > $n.s
    [ "$(wc -l < $n.s)" -eq $n ]
    timed sblog asm $n.s $n.sbi --state 32
    timed sblog dis $n.sbi
    timed sblog check $n.sbi
    sblog dis $n.sbi | cmp - $n.s
done
