# Loads of the longest images of form 3: the processor time of one, of 1,000 loads, and the peak memory with none, one and all.
times=${1:-1000}
proved verifying verifying/verifying images
"$bench/verifying/images" "$work"
for image in masks forks; do
    for count in 0 1 "$times"; do
        /usr/bin/time -f "$image $count %U %S %M" -a -o "$work/figures" out/verifying "$work/$image" "$count" > "$work/accepted"
    done
    [ "$(cat "$work/accepted")" = true ] || { echo "$image is refused" >&2; exit 1; }
done
awk -v times="$times" '
    $2 == 0 { none = $5 } $2 == 1 { one = $5 }
    $2 == times { printf "%s: %.2f ms; %d KB with no load, %d with one, %d with %d\n", $1, ($3 + $4) * 1000 / times, none, one, $5, times }
' "$work/figures"
