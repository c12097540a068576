# Handler calls from Rust, and a plain loop in Rust.
library
rustc -O --edition 2024 -L "$top/dist/lib" -l static=sblog -o "$work/handlers" "$bench/embedding/handlers.rs"
"$work/handlers"
