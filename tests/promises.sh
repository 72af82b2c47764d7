# Every public function stands in docs/PROMISES.md and has two wrong bodies, told there in the edits' own words.
"$(dirname "$0")/../tools/promises"
