# docs/READING.md: every row has something beside its sentence, and what it names is there.
"$(dirname "$0")/../tools/reading"
