# The program `streams` on answers good and bad; what it must print is written out here from document 01: "streams N", a line "ID DIRECTION MIN-MAX" for each
# stream, or "refused N".
cd "$(dirname "$0")/.." || exit 2
shopt -s lastpipe # `expect` stands last in a pipe, and counts here
made=$(mktemp -d) || exit 2
trap 'rm -rf "$made"' EXIT
cases=0
faults=0

fault() {
    echo "$*"
    faults=$((faults + 1))
}

# Proves it and what it stands on, where that was not done yet, and leaves it at crates/streams/out/streams.
command -v rt >/dev/null || { echo "rt is not on the PATH: install the Rattle kit (rt version: $(cat .ci/kit))" && exit 1; }
(cd crates/streams && exec rt run) <crates/streams/stdin >"$made/first" 2>"$made/check" || { tail -n 20 "$made/check" && echo "rt run fails in crates/streams" && exit 1; }
run=("$PWD/crates/streams/out/streams")
[ -x "${run[0]}" ] || { echo "rt run leaves no program ${run[0]}" && exit 1; }

zeros() { # COUNT
    head -c "$1" /dev/zero
}

byte() { # NUMBER..
    local text
    printf -v text '\\%03o' "$@"
    printf "$text"
}

ok() { # the header 0x8000, least byte first
    byte 0 128 0 0
}

stream() { # DIRECTION MIN MAX [FILL]: a PCM info record; FILL is every other byte of it
    local o=${4:-0}
    byte $o $o $o $o $o $o $o $o $o $o $o $o $o $o $o $o $o $o $o $o $o $o $o $o "$1" "$2" "$3" $o $o $o $o $o
}

streams() { # COUNT: that many streams, which differ in direction and channels
    local i
    for ((i = 0; i < $1; i++)); do stream $((i % 3)) $((i % 7)) $((i + 1)); done
}

lines() { # COUNT: what is to be said of them
    local i words=(output input other)
    echo "streams $1"
    for ((i = 0; i < $1; i++)); do echo "$i ${words[i % 3]} $((i % 7))-$((i + 1))"; done
}

# The input is $made/in and the right output $made/right; the program ends with status 0 and says nothing on standard error.
judge() { # TITLE BYTES
    cases=$((cases + 1))
    [ "$(wc -c <"$made/in")" -eq "$2" ] || fault "$1: the test made an input of $(wc -c <"$made/in") bytes and not of $2"
    "${run[@]}" <"$made/in" >"$made/out" 2>"$made/err"
    local status=$?
    [ $status -eq 0 ] || fault "$1: status $status"
    [ ! -s "$made/err" ] || fault "$1: it says $(cat "$made/err")"
    cmp -s "$made/right" "$made/out" || fault "$1: what it printed (+) is not what it must (-):"$'\n'"$(diff -u "$made/right" "$made/out" | sed 1,2d)"
}

expect() { # TITLE BYTES LINE..: the input is on standard input
    cat >"$made/in"
    printf '%s\n' "${@:3}" >"$made/right"
    judge "$1" "$2"
}

# "For `00 80 00 00`, 24 zero bytes, `00 01 02`, five zero bytes it prints exactly two lines: `streams 1` and `0 output 1-2`."
{ printf '\x00\x80\x00\x00'; zeros 24; printf '\x00\x01\x02'; zeros 5; } | expect "the worked example" 36 "streams 1" "0 output 1-2"

# "Direction 1 prints `input`, any other `other`."
{ ok; stream 0 1 2; stream 1 1 1; stream 2 1 2; stream 3 1 2; stream 128 1 2; stream 255 1 2; } |
    expect "directions" 196 "streams 6" "0 output 1-2" "1 input 1-1" "2 other 1-2" "3 other 1-2" "4 other 1-2" "5 other 1-2"

# One, two and three digits; the range is printed as it stands, also where it is none.
{ ok; stream 0 0 0; stream 0 1 9; stream 0 9 10; stream 0 10 99; stream 0 99 100; stream 1 100 109; stream 0 200 255; stream 0 255 0; } |
    expect "channels" 260 "streams 8" "0 output 0-0" "1 output 1-9" "2 output 9-10" "3 output 10-99" "4 output 99-100" "5 input 100-109" "6 output 200-255" "7 output 255-0"

# Only direction, least and most are looked at.
{ ok; stream 0 1 2 255; stream 1 3 4 1; } | expect "other fields" 68 "streams 2" "0 output 1-2" "1 input 3-4"

# So many streams, and a line for each: ids of one, two and three digits.
for count in 0 1 2 3 5 10 11 100 101 126 127; do
    { ok; streams $count; } >"$made/in"
    lines $count >"$made/right"
    judge "$count streams" $((4 + 32 * count))
done
cp "$made/in" "$made/full"

# "Length under 4, above 4,096, or not 4 plus a multiple of 32: `refused 10`."
for length in 0 1 3 5 31 32 35 37 67 69 4067; do head -c $length "$made/full" | expect "length $length" $length "refused 10"; done
for length in 4069 4095 4096 4097 4099 4100 4101 4132 65540; do
    { cat "$made/full"; zeros $((length - 4068)); } | expect "length $length" $length "refused 10"
done

# "Then a header not ok: `refused 2`." The length comes first.
{ byte 1 128 0 0; stream 0 1 2; } | expect "0x8001" 36 "refused 2"
byte 1 128 0 0 | expect "0x8001, no streams" 4 "refused 2"
{ byte 1 128 0 0; stream 0 1 2; zeros 1; } | expect "0x8001 and a byte too many" 37 "refused 10"
{ byte 1 128 0 0; zeros 4096; } | expect "0x8001 and 128 streams" 4100 "refused 10"
byte 1 128 0 | expect "0x8001 cut short" 3 "refused 10"
{ byte 2 128 0 0; stream 0 1 2; } | expect "0x8002" 36 "refused 2"
{ byte 3 128 0 0; stream 0 1 2; } | expect "0x8003" 36 "refused 2"
{ zeros 4; stream 0 1 2; } | expect "a header of zeros" 36 "refused 2"
{ byte 0 0 128 0; stream 0 1 2; } | expect "0x8000 one byte later" 36 "refused 2"
{ byte 0 128 1 0; stream 0 1 2; } | expect "0x18000" 36 "refused 2"
{ byte 0 128 0 1; stream 0 1 2; } | expect "0x1008000" 36 "refused 2"

# An answer that comes in pieces is read to its end.
{ byte 0 128; sleep 0.1; byte 0 0; stream 0 1 2; sleep 0.1; stream 1 1 1; } | "${run[@]}" >"$made/out"
[ "$(cat "$made/out")" = $'streams 2\n0 output 1-2\n1 input 1-1' ] || fault "an answer in pieces: $(cat "$made/out")"

[ $faults -eq 0 ] || exit 1
echo "$((cases + 1)) answers: each is listed or refused as document 01 says"
