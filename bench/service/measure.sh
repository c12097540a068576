# The calls of a session from C and, in turn, from Rattle.
runs=${1:-20}
proved driving driving/driving sessions -- adder 1 1 0
library
in_c service/speed -std=c99
for _ in $(seq "$runs"); do
    for session in "adder 60 167" "relay 60 77"; do
        # shellcheck disable=SC2086
        out/driving $session 0 >> "$work/rattle_${session%% *}"
        # shellcheck disable=SC2086
        "$work/measured" $session >> "$work/c_${session%% *}"
    done
done
each() { of_parts "$work/$1" | awk '{ time += $1; all += $2 } END { printf "%.0f %d\n", time / all, all }'; }
for name in adder relay; do
    echo "$(each "c_$name") $(each "rattle_$name")" | awk -v name="$name" '
        { printf "%s: from C %d ns a call (%d calls), from Rattle %d (%d), ratio %.2f\n", name, $1, $2, $3, $4, $1 / $3 }'
done
