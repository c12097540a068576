# Scenarios of 1,000 and 10,000 messages for one adder: handed in, driven, and carried out by 1 and by 4 workers.
sblog=${1:-$top/crates/sblog/out/sblog}
[ -x "$sblog" ] || "$top/tools/build"
sblog=$(readlink -f "$sblog")
runs=${2:-5}
cd "$work"
cp "$top/examples/adder.sbi" .

# so many messages, and the lines after them
scenario() {
    echo "process a adder.sbi"
    seq "$1" | sed 's/^/input a /'
    [ -z "$2" ] || echo "$2"
}

# a name, how many entries of the journal are wanted, and the words of the program
measure() {
    name=$1 entries=$2
    shift 2
    for _ in $(seq "$runs"); do
        /usr/bin/time -a -o times -f '%e %U %S %M' "$sblog" "$@" > out
        [ "$(grep -c '^[0-9]' out)" = "$entries" ] || { echo "$name: not $entries entries" >&2; exit 1; }
    done
    awk -v name="$name" '
        { processor = $2 + $3
          if (NR == 1 || $1 < wall) wall = $1
          if (NR == 1 || processor < least) least = processor
          if ($4 > memory) memory = $4 }
        END { printf "%-32s %.2f s, processor %.2f s, %d KB\n", name, wall, least, memory }' times
    rm times
}

for count in 1000 10000; do
    scenario $count "" > inputs
    scenario $count "drive 65536" > driven
    measure "run, $count handed in" $count run inputs
    measure "run, $count driven" $((6 * count)) run driven
    for workers in 1 4; do
        measure "live, $count, workers: $workers" $((6 * count)) live inputs --workers $workers --budget 1000000
    done
done
