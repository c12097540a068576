# Messages through a session, by one thread that drives it or by workers.
runs=${1:-60}
# a ledger gets the name and the parts of its blank
mkdir -p "$work/crates/measured/proofs/main"
cat > "$work/crates/measured/proofs/main/Invariants.antt" << 'PROOF'
use Rattle.measured.proofs.main.Given as goal

abbrev pub ghosts-measure : goal.ghosts-measure
ghosts-measure g a = record { name = a.blank.name; parts = a.blank.parts }
PROOF
proved measured workers/workers workers -- 0 1 1 1

# workers (0: one thread drives), processes, sums, messages
measure() {
    for _ in $(seq "$runs"); do
        out/measured "$@"
    done | awk '{ printf "%d\n", $2 / $1 }' | sort -n > "$work/row"
    echo "$*: least $(head -n 1 "$work/row"), median $(sed -n "$(((runs + 1) / 2))p" "$work/row") ns a message"
}
for sums in 895 1; do
    for workers in 0 1 2 4; do
        measure $workers 8 $sums 1000
    done
done
for workers in 1 4 16; do
    measure $workers 1 895 1000
done
