//! Compares two traces: every difference, field by field.
#![forbid(unsafe_code)]

use std::process::ExitCode;
use trace::command::Program;
use trace::listing;

const TRACEDIFF: Program<2> = Program {
    name: "tracediff",
    help: "\
tracediff: every difference of two traces, in order

usage: tracediff [--json] FIRST SECOND

FIRST and SECOND are traces as docs/TRACE.md has them; they need be no runs. The
first line is the count. A difference has the field's number from 0, and

  N - FIELD          a field only in the first
  N + FIELD          a field only in the second
  N < FIELD          what the first has, and on the next line
  N > FIELD          what the second has: the same tag with other contents

A trace that is no whole fields is refused with 18, which of the two, and the
offset: FIRST is judged first.

  --json             one JSON object, for programs
  -h, --help         this text

-- ends the options. Exit status: 0 equal; 1 different; 2 a trace is refused, or
nothing was compared for a bad option or a file that cannot be read.
",
    options: &["--json"],
    files: "two FILEs are compared",
};

fn main() -> ExitCode {
    TRACEDIFF.run(|options, [first, second]| listing::of(first, second, options.contains(&"--json")))
}
