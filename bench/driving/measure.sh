# A session that is driven, in Rattle and by the same calls in plain Rust.
runs=${1:-20}
proved driving driving/driving sessions -- adder 1 1 0
proved=$PWD/out/driving plain=$work/plain
rustc -O -C target-cpu=x86-64-v2 --edition 2024 -o "$plain" "$bench/driving/plain.rs"

for _ in $(seq "$runs"); do
    for session in "adder 60 167" "relay 60 77"; do
        # shellcheck disable=SC2086
        "$proved" $session 0 >> "$work/proved_${session%% *}"
        # shellcheck disable=SC2086
        "$plain" $session >> "$work/plain_${session%% *}"
    done
done
for name in proved_adder plain_adder proved_relay plain_relay; do
    of_parts "$work/$name" | awk -v name="$name" '
        { time += $1; all += $2; each[NR] = $1 / $2 }
        END { printf "%-14s %d entries: %.0f ns a call; parts 1, 2, 3: %.0f %.0f %.0f; 58, 59, 60: %.0f %.0f %.0f; last to first %.2f, to second %.2f\n",
              name, all, time / all, each[1], each[2], each[3], each[58], each[59], each[60], each[60] / each[1], each[60] / each[2] }'
done

# after so many packets were on the wire
for packets in 0 64 1000 4000; do
    for _ in $(seq "$runs"); do
        "$proved" adder 10 167 "$packets" | awk -v packets="$packets" '{ calls += $1; time += $2 } END { print packets, time / calls }'
    done | least_of 2 " " | awk '{ printf "after %d packets: %.0f ns a call\n", $1, $2 }'
done

# ADDER makes 65,536 entries of 10,923 inputs; RELAY and ECHO make 65,533 of 5,041
for session in "adder 10923" "relay 5041"; do
    handler=${session% *} inputs=${session#* }
    echo "$handler, $inputs inputs: proved $(peak 5 "$proved" "$handler" 1 "$inputs" 0) KB at most, plain $(peak 5 "$plain" "$handler" 1 "$inputs") KB"
    echo "$handler, 1 input: proved $(peak 5 "$proved" "$handler" 1 1 0) KB at most, plain $(peak 5 "$plain" "$handler" 1 1) KB"
done
