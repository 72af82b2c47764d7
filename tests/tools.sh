# Each tool of tools/ tells how it is used and stands in tools/README.md; those that cost little are run: repeats and rests on the tree, rests on a crate
# of three small files, skel, paths and wrap on a crate of five functions, wrap on the tree's wrappers too. staticlib, the gate and the host's build script,
# which prove for minutes, are run over a stand-in for rt that proves nothing and writes down what it was asked.
cd "$(dirname "$0")/.." || exit 2
made=$(mktemp -d) || exit 2
trap 'rm -rf "$made"' EXIT
faults=0

fault() {
    echo "$*"
    faults=$((faults + 1))
}

# (a module that several of them read is no tool)
for tool in tools/*; do
    [ -f "$tool" ] && [[ $tool != tools/README.md && $tool != *.py ]] || continue
    [ -x "$tool" ] || fault "$tool cannot be run"
    said=$("$tool" -h 2>&1)
    status=$?
    [ $status -eq 0 ] || [ $status -eq 2 ] || fault "$tool -h ends with status $status"
    grep -qi "usage: $tool" <<<"$said" || fault "$tool -h does not say 'usage: $tool'"
    grep -q "^| \`$(basename "$tool")\`" tools/README.md || fault "tools/README.md has no row for $tool"
done
for named in $(sed -nE 's/^\| `([^`]+)`.*/\1/p' tools/README.md); do
    [ -f "tools/$named" ] || fault "tools/README.md has a row for tools/$named, which is not there"
done

rows=$(tools/repeats --rows 3 | grep -cE '^ *[0-9]+ lines (the same|alike) +crates/[^ ]+:[0-9]+  crates/[^ ]+:[0-9]+$')
[ "$rows" -eq 3 ] || fault "tools/repeats --rows 3 prints $rows rows"
[ "$(tools/repeats --lines 9999)" = "no 9999 lines alike" ] || fault "tools/repeats finds 9999 lines alike"
tools/repeats no_such_crate >/dev/null 2>&1 && fault "tools/repeats takes a crate that is not there"

# What a theorem rests on: 4 lines of a type, 4 of two definitions, and a record of 2 in a file of laws. A comment, a proof and what only the proof mentions
# do not count, nor does a field or a variable that has a definition's name; a type that another file hands on counts where it stands. A contract rests on
# the definition that it names, also where the function has its name.
mkdir -p "$made/rests/tools" "$made/rests/crates/small/src" "$made/rests/crates/small/specs"
cp tools/rests "$made/rests/tools"
cat >"$made/rests/crates/small/src/lib.rt" <<'RT'
ghost use Rattle.std.specs.Prelude.{◌≡◌, ◌<◌, ◌^◌};
ghost use Rattle.small.specs.Sums.{sum};

// Two numbers.
#[derive(Clone, Copy)]
pub struct Pair {
    // the first
    pub a: u64,
    pub b: u64,
}

pub fn sum(a: Pair) -> u64
    ensures value { result ≡ sum a }
    ensures fits {
        result < 2 ^ 64
    }
{
    a.a + a.a + a.b
}
RT
cat >"$made/rests/crates/small/specs/Sums.antt" <<'ANTT'
use Rattle.std.specs.Prelude.{ℕ, ◌+◌}
use Rattle.small.specs.SumLaws.{Even, even_sum}
use Rattle.small.specs.Types.{Pair}

-- twice a number
abbrev pub twice : ℕ → ℕ
twice a = a + a

abbrev pub sum : Pair → ℕ
sum p = twice p.a + p.b

abbrev pub a : ℕ → ℕ
a n = n

pub even : (p : Pair)
    → Even (sum p)
even p = even_sum (a p.a)
ANTT
echo 'pub use Rattle.small.specs.declared.Pair.{Pair}' >"$made/rests/crates/small/specs/Types.antt"
cat >"$made/rests/crates/small/specs/SumLaws.antt" <<'ANTT'
use Rattle.std.specs.Prelude.{ℕ, ◌+◌, ◌≡◌, ◌×◌}

pub record Even (n : ℕ) : Type 0 where
  pub half : (m : ℕ) × (m + m ≡ n)
ANTT
says() { # NAME LINE..
    local name=$1 line
    said=$("$made/rests/tools/rests" "$name")
    shift
    for line; do
        grep -qxF -- "$line" <<<"$said" || fault "tools/rests does not say '$line' of $name: $said"
    done
}
says small:even "    4        2  crates/small/src/lib.rt  Pair" "    4        1  crates/small/specs/Sums.antt  sum twice" "    2        0* crates/small/specs/SumLaws.antt  Even" \
    "10 lines of definitions in 3 files, with 3 lines of comment; what was asked for has 2 lines itself" "* Even (crates/small/specs/SumLaws.antt) is reached by even (crates/small/specs/Sums.antt)"
says crates/small/src/lib.rt:sum "    4        2  crates/small/src/lib.rt  Pair" "    4        1  crates/small/specs/Sums.antt  sum twice" \
    "8 lines of definitions in 2 files, with 3 lines of comment; what was asked for has 5 lines itself"
[ "$("$made/rests/tools/rests" --unknown)" = "0 names unknown" ] || fault "tools/rests cannot place every name of a small crate"
sed -i 's/ensures value { result ≡ sum a }/ensures value { result ≡ other a }/' "$made/rests/crates/small/src/lib.rt"
[ "$("$made/rests/tools/rests" --unknown)" = $'crates/small/src/lib.rt: other\n1 name unknown' ] || fault "tools/rests takes a name in a contract that is not there"
"$made/rests/tools/rests" small:odd >/dev/null 2>&1 && fault "tools/rests takes a name that is not there"
said=$(tools/rests --unknown) || fault "tools/rests cannot place every name of the tree: $said"
for path in $(tools/rests --demand | grep -oE 'crates/\w+/specs/\w+\.antt' | sort -u); do
    grep -q "$(basename "$path")" README.md || fault "README.md, an hour's reading, does not name $path, on which demand 3 rests"
done

for tool in skel paths wrap; do
    tools/$tool no_such_crate f >/dev/null 2>&1 && fault "tools/$tool takes a crate that is not there"
done

# A repository of five crates, a kit of empty files, and an rt that says what the files beside it tell it to. The crates lie where rt
# is called, and rt takes the folder that it lies in for its kit.
stand=$made/stand
machine=$(uname -m)
mkdir -p "$stand/kit/bin" "$stand/kit/toolchain/bin" "$stand/kit/toolchain/lib" "$stand/repo/.ci" "$stand/repo/tools" "$stand/repo/tests" "$stand/repo/host/snd"
mkdir -p "$stand"/repo/crates/{base,one,other,alone,console}/src
echo stand-in-1 | tee "$stand/kit/KIT-ID" >"$stand/repo/.ci/kit"
for part in bin/rattle bin/rtlib.py toolchain/bin/clang toolchain/bin/llvm-ar; do
    : >"$stand/kit/$part"
    chmod +x "$stand/kit/$part"
done
printf '%s\n' '#!/bin/sh' 'printf "%s\n" "$@" >"$STAND/words"' >"$stand/kit/toolchain/bin/clang"
cp tools/staticlib "$stand/repo/tools"
cp .ci/run "$stand/repo/.ci"
printf '%s\n' '# two stores: and what is on them' 'base:' 'one: base io' 'other: base' 'alone staticlib: io' 'console staticlib: base one other' >"$stand/repo/crates.txt"
cat >"$stand/kit/bin/rt" <<'RT'
#!/usr/bin/env bash
[ "$1" = version ] && cat "$STAND/kit/KIT-ID" && exit
name=$(basename "$PWD")
kit=$(dirname "$(dirname "$(readlink -f "$0")")")
echo "$1 $name${2:+ ${*:2}}" >>"$STAND/asked"
case $1 in
check) echo "rt: chose --jobs 2 for base" && exit "$(cat "$STAND/check")" ;;
lib) mkdir -p out && printf '!<arch>\nsnd_new\0' >"out/lib$name.a" && "$kit/toolchain/bin/clang" -x ir module.bc && echo "fn f: proved" ;;
ci) cat "$STAND/said" && exit "$(cat "$STAND/ended")" ;;
esac
RT
# The kit's folder is named as a user's is, and SND_LIB as one's who has an archive from elsewhere.
beside() { env PATH="$stand/kit/bin:$stand/bin:$PATH" STAND="$stand" RATTLE_HOME="$stand/kit" SND_LIB=/elsewhere.a "$@" 2>&1; }
afresh() {
    rm -rf "$stand/repo/target" "$stand"/repo/crates/*/out "$stand/asked" "$stand/words"
    echo 0 >"$stand/check"
    echo stand-in-1 >"$stand/kit/KIT-ID"
    printf '%s\n' 'rt: ok; handles allowed: none; must-fail edits: 2 refused; every proof and must-fail edit was done in this run' '3 passed, 0 failed' >"$stand/said"
    echo 0 >"$stand/ended"
}
mkdir -p "$stand/bin"
chmod +x "$stand/kit/bin/rt"

# staticlib tells what it is about to do, then has the crate proved that it is for, with those below, then makes the archive.
afresh
said=$(beside "$stand/repo/tools/staticlib") || fault "tools/staticlib fails over a stand-in for rt: $said"
case $machine in
x86_64) lib="lib console --cpu x86-64" ;;
*) lib="lib console --target aarch64-unknown-linux-gnu" ;;
esac
[ "$(cat "$stand/asked")" = "check console"$'\n'"$lib" ] || fault "tools/staticlib asks rt for other than the proof, then the archive: $(cat "$stand/asked")"
[ "$(head -n 1 <<<"$said")" = "tools/staticlib: proves 4 crates, console last; one that has not changed since it was proved here is not proved again" ] ||
    fault "tools/staticlib does not say first how many crates it proves: $said"
takes=$(sed -nE 's/^tools\/staticlib: from nothing that takes (about [0-9]+ minutes on two cores) .*/\1/p' <<<"$said")
[ -n "$takes" ] && grep -q "$takes" docs/BENCH.md || fault "tools/staticlib does not say how long it takes, in words of docs/BENCH.md: $said"
[ -f "$stand/repo/target/staticlib/libconsole.a" ] || fault "tools/staticlib leaves no archive at target/staticlib/libconsole.a"
if [ "$machine" = x86_64 ]; then
    grep -qx -- '-force-attribute=noredzone' "$stand/words" && [ "$(tail -n 3 "$stand/words")" = $'-x\nir\nmodule.bc' ] || fault "clang is not told to force that there is no red zone, beside what rt tells it: $(cat "$stand/words")"
    grep -qx -- '-mgeneral-regs-only' "$stand/words" && fault "clang is held to the general registers with no --no-sse"
    cp -p "$stand/repo/target/staticlib/libconsole.a" "$stand/kept.a"
    said=$(beside "$stand/repo/tools/staticlib" --no-sse) || fault "tools/staticlib --no-sse fails over a stand-in for rt: $said"
    grep -qx -- '-mgeneral-regs-only' "$stand/words" && grep -qx -- '-force-attribute=noredzone' "$stand/words" || fault "clang is not held to the general registers by --no-sse: $(cat "$stand/words")"
    [ -f "$stand/repo/target/staticlib/no-sse/libconsole.a" ] && [ ! "$stand/repo/target/staticlib/libconsole.a" -nt "$stand/kept.a" ] || fault "tools/staticlib --no-sse does not leave both archives"
fi
afresh
said=$(beside "$stand/repo/tools/staticlib" alone) || fault "tools/staticlib fails of a crate with none below it: $said"
[ "$(cat "$stand/asked")" = "check alone"$'\n'"${lib/console/alone}" ] && [ "$(head -n 1 <<<"$said" | cut -d, -f1)" = "tools/staticlib: proves 1 crates" ] ||
    fault "tools/staticlib proves other crates than the one that has none below it: $(cat "$stand/asked") $said"
afresh
echo 3 >"$stand/check"
beside "$stand/repo/tools/staticlib" >/dev/null
[ $? -eq 3 ] && [ "$(wc -l <"$stand/asked")" -eq 1 ] || fault "tools/staticlib goes on where a crate is not proved"

# What costs nothing is refused before anything is proved.
early() { # WHAT SENTENCE [NAME]
    said=$(beside "$stand/repo/tools/staticlib" ${3:+"$3"}) && fault "tools/staticlib goes on with $1"
    grep -q "^tools/staticlib: $2" <<<"$said" || fault "tools/staticlib does not say of $1 '$2': $said"
    [ ! -e "$stand/asked" ] || fault "tools/staticlib has something proved before it sees $1"
}
afresh
echo stand-in-2 >"$stand/kit/KIT-ID"
early "another kit" "the kit at hand is 'stand-in-2'; this repository is proved with 'stand-in-1'"
afresh
early "a library for crates" "crates.txt does not call 'base' a static library" base
early "a crate that is not there" "crates.txt lists no crate 'bas'" bas
chmod -x "$stand/kit/toolchain/bin/clang"
early "a clang that cannot be run" "the kit's toolchain/bin/clang cannot be run"
mv "$stand/kit/toolchain/bin/clang" "$stand/clang"
early "no clang" "the kit at .* lacks toolchain/bin/clang"
mv "$stand/clang" "$stand/kit/toolchain/bin/clang"
chmod +x "$stand/kit/toolchain/bin/clang"
printf '%s\n' '#!/bin/sh' 'echo Filesystem' 'echo x 9 9 20480 9 /' >"$stand/bin/df"
chmod +x "$stand/bin/df"
early "a full disk" "20 MB are free where crates/ stands: proving may take 3000 MB more"
rm "$stand/bin/df"

# The gate is of this tree and of this kit: no archive from elsewhere, and a kit of another name is one failure more.
printf '%s\n' '#!/bin/sh' 'echo "test result: ok. 2 passed; 0 failed; 0 ignored; SND_LIB=${SND_LIB-none}"' >"$stand/bin/cargo"
chmod +x "$stand/bin/cargo"
echo 'echo "a test sees SND_LIB=${SND_LIB-none}"' >"$stand/repo/tests/sees.sh"
afresh
said=$(beside bash "$stand/repo/.ci/run") || fault "the gate fails over a stand-in for rt: $said"
[ "$(tail -n 1 <<<"$said")" = "6 passed, 0 failed" ] || fault "the gate counts otherwise over a stand-in for rt: $said"
[ "$(head -n 1 "$stand/asked")" = "ci repo" ] || fault "the gate does not begin with rt ci at the top: $(cat "$stand/asked")"
[ "$(grep -c 'SND_LIB=none$' <<<"$said")" -eq 2 ] || fault "the gate's tests see SND_LIB: $said"
sum=$(sha256sum <"$stand/repo/target/staticlib/libconsole.a" | cut -d' ' -f1)
grep -qx "archive sha256 $sum  target/staticlib/libconsole.a" <<<"$said" || fault "the gate does not tell the archive's sha256, $sum: $said"
afresh
echo stand-in-2 >"$stand/kit/KIT-ID"
said=$(beside bash "$stand/repo/.ci/run") && fault "the gate passes with another kit"
grep -qx "the kit at hand is 'stand-in-2'; this repository is proved with 'stand-in-1' (.ci/kit)" <<<"$said" || fault "the gate does not name both kits: $said"
[ "$(tail -n 1 <<<"$said")" = "4 passed, 2 failed" ] || fault "the gate with another kit counts otherwise (the kit; the static library): $said"

# It fails where rt ci does, whatever that counted, and where rt ci passes over an edit that is bad.
refuses() { # WHAT TOTAL SENTENCE
    said=$(beside bash "$stand/repo/.ci/run") && fault "the gate passes where $1"
    [ "$(tail -n 1 <<<"$said")" = "$2" ] || fault "the gate counts otherwise where $1: $said"
    grep -qx "$3" <<<"$said" || fault "the gate does not say '$3' where $1: $said"
}
afresh
printf '%s\n' 'rt: FAILED: base' '2 passed, 1 failed' >"$stand/said"
echo 1 >"$stand/ended"
refuses "a crate is not proved" "5 passed, 1 failed" 'rt: FAILED: base'
afresh
echo 1 >"$stand/ended"
refuses "rt ci ends with a status that is not 0" "6 passed, 1 failed" 'rt ci ended with status 1'
afresh
echo '3 passed, 0 failed' >"$stand/said"
refuses "rt ci does not say that all is well" "6 passed, 1 failed" "rt ci has no line 'rt: ok'"
afresh
echo 'rt: stopped' >"$stand/said"
echo 2 >"$stand/ended"
refuses "rt ci comes to no total" "3 passed, 1 failed" 'rt ci came to no total'
for edits in '3 refused, 2 bad' '3 refused, 1 of them only by a limit, 2 bad' '0 refused, 2 bad'; do
    for share in 'every proof and must-fail edit was done in this run' 'done in this run: 3 of the 8 proofs (of crates and of their tests); the others are kept from earlier runs of the same files on this machine'; do
        afresh
        printf '%s\n' "rt: ok; handles allowed: none; must-fail edits: $edits; $share" '3 passed, 0 failed' >"$stand/said"
        refuses "edits are bad ($edits)" "6 passed, 2 failed" 'rt ci passed over must-fail edits that are bad: 2'
    done
done

# The host's build script shows how far the proof is, on the terminal if there is one, else by two warnings of cargo's.
if command -v rustc >/dev/null; then
    rustc --edition 2024 -o "$stand/build" host/snd/build.rs || fault "host/snd/build.rs does not compile by itself"
    mkdir -p "$stand/out"
    echo x >"$stand/repo/crates/base/src/lib.rt"
    build=(env -u SND_LIB "CARGO_MANIFEST_DIR=$stand/repo/host/snd" "OUT_DIR=$stand/out" "$stand/build")
    afresh
    said=$(beside setsid -w "${build[@]}") || fault "the build script fails over a stand-in for rt: $said"
    [ "$(grep -c '^cargo:warning=' <<<"$said")" -eq 2 ] && grep -q '^cargo:warning=proved and made in [0-9]* s$' <<<"$said" || fault "the build script leaves no two warnings where there is no terminal: $said"
    afresh
    said=$(beside python3 -c 'import pty, sys; sys.exit(pty.spawn(sys.argv[1:]))' bash -c '"$@" >"$0"' "$stand/said" "${build[@]}") || fault "the build script fails on a terminal: $said"
    grep -q 'rt: chose --jobs 2 for base' <<<"$said" && grep -q 'tools/staticlib: proves 4 crates' <<<"$said" || fault "the build script shows no progress on the terminal: $said"
    grep -q 'fn f: proved' <<<"$said" && fault "the build script shows each function on the terminal: $said"
    grep -q '^cargo:warning=' "$stand/said" && fault "the build script warns though there is a terminal: $(cat "$stand/said")"
    afresh
    echo 1 >"$stand/check"
    said=$(beside setsid -w "${build[@]}") && fault "the build script goes on where a crate is not proved"
    grep -q '^no archive was made' <<<"$said" && grep -q '^rt: chose --jobs 2 for base$' <<<"$said" || fault "the build script does not tell what was said where no archive was made: $said"

    # The archive is made again where a proved source is newer, and not where what proving keeps beside it is.
    afresh
    beside setsid -w "${build[@]}" >/dev/null && rm "$stand/asked"
    touch -d '1 hour' "$stand/repo/crates/console/out/kept"
    beside setsid -w "${build[@]}" >/dev/null && [ ! -e "$stand/asked" ] || fault "the build script makes the archive again where only out/ is newer"
    touch -d '1 hour' "$stand/repo/crates/base/src/lib.rt"
    beside setsid -w "${build[@]}" >/dev/null && [ -e "$stand/asked" ] || fault "the build script makes no archive where a proved source is newer"
fi

# A sum that may wrap, two thin wrappers over a record behind `&mut`, and a third that answers another number than it promises.
if command -v rt >/dev/null; then
    mkdir -p "$made/tools" "$made/crates/small/src" "$made/.git"
    cp tools/skel tools/paths tools/wrap "$made/tools"
    echo "small:" >"$made/crates.txt"
    cat >"$made/crates/small/src/lib.rt" <<'RT'
#![tactic(auto)]

ghost use Rattle.std.specs.Prelude.{◌≡◌};

pub fn sum(a: u64, b: u64) -> u64 {
    if a < b {
        return b;
    }
    a + b
}

#[derive(Clone, Copy)]
pub struct Ring {
    pub last: u32,
}

#[derive(Clone, Copy)]
pub struct Turned {
    pub ring: Ring,
    pub said: u32,
}

fn turn(r: Ring, n: u32) -> Turned
    ensures last { result.ring.last ≡ n }
    ensures said { result.said ≡ r.last }
{
    Turned {
        ring: Ring { last: n },
        said: r.last,
    }
}

pub fn turn_in_place(ring: &mut Ring, n: u32) -> u32
    ensures last { ring.new.last ≡ n }
    ensures said { result ≡ ring.old.last }
{
    let t = turn(*ring, n);
    *ring = t.ring;
    t.said
}

impl Ring {
    pub fn advance(&mut self, n: u32) -> Turned
        ensures last { self.new.last ≡ n }
        ensures said { result.said ≡ self.old.last }
    {
        let t = turn(*self, n);
        *self = t.ring;
        t
    }
}

pub fn wrong_in_place(ring: &mut Ring, n: u32) -> u32
    ensures { result ≡ ring.old.last }
{
    let t = turn(*ring, n);
    *ring = t.ring;
    t.ring.last
}
RT
    said=$(tools/wrap turns in_place.turn_in_place in_place.drain_in_place in_place.turn_lent 2>&1) || fault "tools/wrap: a wrapper of the tree is not walked: $said"
    said=$("$made/tools/wrap" small turn_in_place Ring.advance 2>&1) || fault "tools/wrap: Rattle does not walk a thin wrapper: $said"
    [ "$said" = "small: turn_in_place, Ring.advance: walked by Rattle, and proved" ] || fault "tools/wrap says otherwise of two wrappers: $said"
    "$made/tools/wrap" small wrong_in_place >/dev/null 2>&1 && fault "tools/wrap takes a wrapper that does not keep its promise"
    mkdir -p "$made/crates/small/proofs/turn_in_place" && : >"$made/crates/small/proofs/turn_in_place/Proof.antt"
    said=$("$made/tools/wrap" small turn_in_place 2>&1) && fault "tools/wrap takes a walk by hand"
    grep -q 'crates/small/proofs/turn_in_place/Proof.antt is a walk by hand' <<<"$said" || fault "tools/wrap does not say where a walk by hand stands: $said"
    rm -r "$made/crates/small/proofs"
    said=$("$made/tools/skel" small 2>&1) && fault "tools/skel: a sum that may wrap is proved"
    grep -q '^wrote: crates/small/proofs/sum/Answers.antt$' <<<"$said" || fault "tools/skel wrote no skeleton: $said"
    grep -q '= ?$' "$made/crates/small/proofs/sum/Answers.antt" || fault "the skeleton that tools/skel wrote has no hole"
    [ ! -e "$made/crates/small/proofs/turn" ] || fault "tools/skel writes a file where Rattle makes the proof"
    said=$("$made/tools/paths" small sum)
    grep -A 9 '^overflow_add' <<<"$said" | grep -q '^  c\.if-a-b: \.false$' || fault "tools/paths does not show the branch before the sum: $said"
    grep -A 9 '^returns-then' <<<"$said" | grep -q '^  c\.if-a-b: \.true$' || fault "tools/paths does not show the branch before the first return: $said"
    "$made/tools/paths" small none >/dev/null 2>&1 && fault "tools/paths shows a function that is not there"
fi

[ $faults -eq 0 ] || exit 1
if ! command -v rt >/dev/null; then
    echo "rt is not on the PATH: skel, paths and wrap were not run"
    exit 77
fi
