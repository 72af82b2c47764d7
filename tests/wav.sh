# WAVE files of other programs: sox writes some of every width, number of channels and rate, espeak-ng speaks a sentence, and Python's module wave writes one with and one
# without a pad. What `announce` says of a file is held to what soxi says of it, the frames to those that sox reads, and so is the file that --wav writes.
cd "$(dirname "$0")/.." || exit 2
made=$(mktemp -d) || exit 2
trap 'rm -rf "$made"' EXIT
read_files=0
refused_files=0
faults=0

fault() {
    echo "$*"
    faults=$((faults + 1))
}

at_hand() { command -v sox >/dev/null && command -v soxi >/dev/null && command -v espeak-ng >/dev/null; }

# On a machine that is there for the gate they may be installed; that may take five minutes.
fetch() {
    [ "${CI:-}" = true ] || return 1
    echo "sox or espeak-ng is not there: installing Debian's packages"
    timeout 300 bash -c 'apt-get -qq update && DEBIAN_FRONTEND=noninteractive apt-get -qq -y --no-install-recommends install sox espeak-ng' >/dev/null 2>&1
    at_hand
}

at_hand || fetch || { echo "sox or espeak-ng is not there: no WAVE file of another program was tried (Debian's packages sox, espeak-ng)" && exit 77; }
command -v cargo >/dev/null || { echo "cargo is not on the PATH" && exit 1; }
(cd host && cargo build --release --offline --quiet -p announce) || exit 1
announce=$PWD/host/target/release/announce
cd "$made" || exit 2

# The line of the page with this name.
line() { # NAME
    sed -n "s/^$1 *//p" page | head -n 1
}

# As the page names the format of so many bits.
format() { # BITS
    case $1 in
    8) echo U8 ;;
    16) echo S16 ;;
    24) echo S24_3 ;;
    32) echo S32 ;;
    esac
}

# FILE is announced whole, and what is said of it is what soxi says.
taken() { # FILE
    local channels rate bits frames wanted
    "$announce" "$1" --accepted accepted.raw --wav accepted.wav >page 2>said || { fault "$1: status $?: $(cat said page)" && return; }
    read -r channels rate bits frames < <(echo "$(soxi -c "$1") $(soxi -r "$1") $(soxi -b "$1") $(soxi -s "$1")")
    wanted="$channels channels, $(format "$bits"), $rate Hz"
    [ "$channels" -ne 1 ] || wanted="1 channel, $(format "$bits"), $rate Hz"
    [[ $(line parameters) == *", $wanted" ]] || fault "$1: soxi says $wanted; the page: $(line parameters)"
    [[ $(line announcement) == "$1, $(stat -c %s "$1") bytes, $((frames * channels * bits / 8)) of frames from byte "* ]] || fault "$1: soxi says $frames frames; the page: $(line announcement)"
    sox "$1" -t raw theirs.raw && cmp -s theirs.raw accepted.raw || fault "$1: sox reads other frames"
    [ "$(soxi -c accepted.wav) $(soxi -r accepted.wav) $(soxi -b accepted.wav) $(soxi -s accepted.wav)" = "$channels $rate $bits $frames" ] || fault "$1: the file written is not its like"
    sox accepted.wav -t raw theirs.raw && cmp -s theirs.raw accepted.raw || fault "$1: the file written has other frames"
    read_files=$((read_files + 1))
}

# FILE is refused with these words, and what sox makes of it, called as it is told there, is taken.
refused() { # FILE WORDS
    local call
    "$announce" "$1" >page 2>said
    [ $? -eq 2 ] && [ ! -s page ] || fault "$1: it is not refused"
    grep -qF "$2" said || fault "$1: refused in other words: $(cat said)"
    refused_files=$((refused_files + 1))
    read -ra call < <(grep -o "sox $1 .* out.wav" said) || fault "$1: it is not told what to do: $(cat said)"
    "${call[@]}" 2>/dev/null && taken out.wav
}

# What sox writes by default: an extensible header for more than 16 bits or two channels, which is refused.
by_default() { # FILE
    if [ "$(od -An -tu2 -j20 -N2 "$1" | tr -d ' ')" -eq 65534 ]; then
        refused "$1" "$1 has an extensible header, which the driver does not take (14 BadSound)"
    else
        taken "$1"
    fi
}

tone() { # BITS CHANNELS RATE FRAMES WORD..    FILE last
    local bits=$1 channels=$2 rate=$3 frames=$4
    shift 4
    sox -D -n -r "$rate" -c "$channels" -b "$bits" "$@" synth "${frames}s" sine 440 || fault "sox does not write $*"
}

for bits in 8 16 24 32; do
    for channels in 1 2 3 4 5 6 7 8; do
        for frames in 101 2000; do
            tone $bits $channels 16000 $frames -t wavpcm plain.wav
            taken plain.wav
        done
        tone $bits $channels 48000 77 default.wav
        by_default default.wav
    done
    for rate in 5512 8000 11025 16000 22050 32000 44100 48000 64000 88200 96000 176400 192000 384000; do
        tone $bits 1 $rate 1001 -t wavpcm plain.wav
        taken plain.wav
    done
done

# A spoken sentence, from a file and through a pipe.
espeak-ng -w spoken.wav "feeder one four" || fault "espeak-ng does not speak"
taken spoken.wav
[[ $(line accepted) == *"the frames, byte for byte" ]] || fault "the sentence is not given whole: $(line accepted)"
espeak-ng --stdout "feeder one four" >piped.wav
refused piped.wav "piped.wav is no whole WAVE file (13 NotWave)"

# Python's module writes no pad: an even number of bytes is taken, an odd one is not.
python3 - <<'P' || fault "python3 does not write"
import wave
for name, bytes in (('even.wav', 100), ('odd.wav', 101)):
    with wave.open(name, 'wb') as file:
        file.setparams((1, 1, 8000, 0, 'NONE', ''))
        file.writeframes(bytes * b'\x80')
P
taken even.wav
refused odd.wav "odd.wav is no whole WAVE file (13 NotWave)"

# Other sounds: floats, A-law, a rate that is none of the 14.
tone 32 1 8000 100 -e floating-point other.wav
refused other.wav "other.wav has a sound that the driver does not take (14 BadSound)"
tone 8 2 8000 100 -e a-law other.wav
refused other.wav "other.wav has a sound that the driver does not take (14 BadSound)"
tone 16 1 12345 100 other.wav
refused other.wav "other.wav has a sound that the driver does not take (14 BadSound)"

[ "$faults" -eq 0 ] || { echo "$faults faults"; exit 1; }
echo "$read_files WAVE files of other programs are read as soxi reads them, $refused_files are refused in the words for each"
