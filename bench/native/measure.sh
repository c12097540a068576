# sblog_compile of images of 128 to 1,024 slots of each form.
library "${2:-}"
in_c native/native -std=c99
"$bench/native/images" "$work"
echo "load $(cut -d ' ' -f 1 /proc/loadavg)"
cd "$work"
./measured "${1:-200}" [1-3]-*
