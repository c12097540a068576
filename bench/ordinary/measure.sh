# The corpus by sblog_run and by DPDK's interpreter, in turn.
dpdk
library "${2:-}"
in_c ordinary/ordinary -std=c99 "$bpf"
"$bench/ordinary/messages" > "$work/messages"
handlers_of_corpus "$work" .sbi
cd "$work"
./measured "${1:-400}" messages ./*.sbi
