# The script sblog without hints, from its start to its end, and the program alone.
cd "$top"
[ -x crates/sblog/out/sblog ] || tools/build
timed ./sblog check examples/adder.sbi
timed ./sblog run examples/scenarios/one_message.scenario
timed crates/sblog/out/sblog run examples/scenarios/one_message.scenario
