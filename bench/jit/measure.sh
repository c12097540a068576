# Machine code of sblog_compile and of DPDK's JIT: the examples, the corpus in each form, and 400 instructions of one kind.
dpdk
library "${2:-}"
# the loop that clears a few bytes of the stack stays a loop
in_c jit/jit -std=gnu11 -fno-tree-loop-distribute-patterns "$bpf"
"$bench/ordinary/messages" > "$work/messages"
mkdir "$work/images"
"$bench/jit/images" "$work/images"
cp "$top"/examples/*.sbi "$top"/examples/c/limiter.sbi "$top"/examples/c/replicated.sbi "$top"/examples/c/sized.sbi \
    "$top"/examples/native/*.sbi "$work/images"
handlers_of_corpus "$work/images" .3.sbi
cd "$work/images"
for image in *.3.sbi; do
    for form in 1 2; do
        { printf 'SBI%s' "$form"; tail -c +5 "$image"; } > "${image%.3.sbi}.$form.sbi"
    done
done
"$work/measured" "${1:-400}" ../messages ./*.sbi
