# The port answers as the Rust did when its answers were recorded; no text of the Rust is needed.
cd "$(dirname "$0")/../host" || exit 2
cargo build --release --offline --quiet -p compare || exit 1
target/release/compare --replay compare/recorded.txt
