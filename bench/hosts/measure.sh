# sblog-node over each transport, beside Redis streams and NATS JetStream.
"$top/hosts/build" "$work" >&2
SBLOG_NODE=$work/sblog-node "$bench/hosts/measure.py" "$@"
