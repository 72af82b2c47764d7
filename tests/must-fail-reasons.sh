# Every must-fail edit was refused at a fact.
"$(dirname "$0")/../tools/must-fail-reasons" -q
