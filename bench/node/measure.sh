# A message through a gateway and two nodes, and the same work in a session.
runs=${1:-10}
library "${SBLOG_LIBRARY:-}"
in_c node/node -std=c11

# the lines of some runs: of each kind of line the one with the least time
shortest() {
    for _ in $(seq "$runs"); do
        "$work/measured" "$@"
    done | awk '{ match($0, /[0-9.]+ (ns|ms)/); print $1, $2, $3, $4 "\t" substr($0, RSTART, RLENGTH) + 0 "\t" $0 }' |
        least_of 2 '\t' | cut -f 3-
}

cat /proc/loadavg
shortest speed 50000
for size in 8 100; do
    shortest batches 50000 $size
done
for replays in 1000 10000 20000; do
    shortest restart $replays
done
shortest kept 20000
"$work/measured" memory 10000000
cat /proc/loadavg
