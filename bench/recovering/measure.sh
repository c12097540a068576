# A crash, the recovery and the replay after it, checkpoint and trim in a session; collect and replay without one.
proved recovering recovering/recovering sessions -- session 1
for _ in $(seq "${1:-20}"); do
    out/recovering session 1000 5000
    out/recovering plan 1000 30000
done | least_of 3 " " | awk '
    { least[$1 " " $2] = $3; printf "%-18s %10d ns, %d ns a message\n", $1 " " $2, $3, $3 / $2 }
    END {
        few = (least["recover 1000"] + least["replay 1000"]) / 1000
        many = (least["recover 5000"] + least["replay 5000"]) / 5000
        printf "recover and replay, 5,000 messages to 1,000: %.2f a message\n", many / few
        few = (least["collect 1000"] + least["run 1000"]) / 1000
        many = (least["collect 30000"] + least["run 30000"]) / 30000
        printf "collect and run, 30,000 messages to 1,000: %.2f a message\n", many / few
    }'
