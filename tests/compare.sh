# The Rust's own text, the port through its C entries, and a second reading of document 01, side by side on the same cases.
cd "$(dirname "$0")/../host" || exit 2
cargo build --release --offline --quiet -p compare || exit 1
target/release/compare
