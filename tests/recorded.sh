# The recorded answers are those that the Rust's text gives now.
cd "$(dirname "$0")/../host" || exit 2
cargo build --release --offline --quiet -p compare || exit 1
target/release/compare --check compare/recorded.txt
