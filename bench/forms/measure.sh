# Handlers of forms 1 and 2: the handler, its form, the length of its messages, and the least time of a call.
proved forms forms/forms interp
for _ in $(seq "${1:-5}"); do
    out/forms
done | least_of 3 '\t' | awk -F '\t' '{ printf "%s, %s bytes: %.1f ns\n", $1, $2, $3 / 500 }'
