# An interrupt at any instruction of the archive, on the stack that it meets, changes nothing: a guest in QEMU makes every call of a session again for each of
# its instructions, interrupted there (tests/sweep.c). A function that keeps numbers below its stack pointer is seen at the three instructions where it does.
# The form without SSE, where it stands, runs on a processor that refuses SSE. Where there is no QEMU, tests/redzone.sh is the simulation.
cd "$(dirname "$0")/.." || exit 2
archive=${SND_LIB:-target/staticlib/libconsole.a}
made=$(mktemp -d) || exit 2
trap 'rm -rf "$made"' EXIT

skip() {
    echo "$*"
    exit 77
}

# The first words of a call of a C compiler for x86-64: the machine's own, a cross compiler, the kit's clang.
compiler() {
    local kit
    kit=${RATTLE_HOME:-$(dirname "$(readlink -f "$(command -v rt)")")/..}/toolchain/bin
    if [[ $(gcc -dumpmachine 2>/dev/null) == x86_64-* ]]; then
        cc=(gcc)
    elif command -v x86_64-linux-gnu-gcc >/dev/null; then
        cc=(x86_64-linux-gnu-gcc)
    elif [ -x "$kit/clang" ] && command -v gcc >/dev/null; then
        cc=("$kit/clang" --target=x86_64-unknown-linux-gnu -fuse-ld=lld -Wno-unused-command-line-argument -isystem "$(gcc -print-file-name=include)") # the kit has no stdint.h
    else
        skip "no C compiler for x86-64 is at hand: install gcc-x86-64-linux-gnu, or gcc beside the Rattle kit"
    fi
}

# On a machine that is there for the gate QEMU may be installed; that may take five minutes.
fetch() {
    [ "${CI:-}" = true ] || return 1
    echo "qemu-system-x86_64 is not there: installing Debian's package qemu-system-x86"
    timeout 300 bash -c 'apt-get -qq update && DEBIAN_FRONTEND=noninteractive apt-get -qq -y --no-install-recommends install qemu-system-x86' >/dev/null 2>&1
    at_hand
}
at_hand() { command -v qemu-system-x86_64 >/dev/null; }

build() { # ARCHIVE WORD..
    local archive=$1 file
    shift
    for file in host/console/boot.s host/console/memory.s tests/sweep.s tests/sweep.c; do
        "${cc[@]}" "$@" -std=gnu11 -Wall -Wextra -Werror -O2 -ffreestanding -mno-red-zone -mgeneral-regs-only -fno-pic -fno-stack-protector \
            -fno-asynchronous-unwind-tables -I host/include -c -o "$made/$(basename "$file").o" "$file" || return 1
    done
    "${cc[@]}" -nostdlib -static -no-pie -Wl,--build-id=none -Wl,-z,noexecstack -T host/console/console.ld -o "$made/guest" "$made"/*.o "$archive"
}

# isa-debug-exit: QEMU ends with 2 * code + 1.
boot() {
    timeout 300 qemu-system-x86_64 -machine microvm,pic=off,pit=off,rtc=off,isa-serial=on -accel tcg -cpu qemu64 -m 64 -nodefaults -no-user-config \
        -no-reboot -display none -serial stdio -device isa-debug-exit,iobase=0xf4,iosize=4 -kernel "$made/guest" >"$made/said" 2>"$made/qemu"
    local status=$?
    cat "$made/said"
    case $status in
    33) return 0 ;;
    35) echo "an interrupt on the same stack changes what these calls do; the first of them in $(where)" ;;
    37 | 39) ;; # the guest has said why
    124) echo "the guest did not end within five minutes" ;;
    *) echo "QEMU ended with status $status: $(cat "$made/qemu")" ;;
    esac
    return 1
}

# The function in which the first wrong outcome was interrupted.
where() { addr2line -f -e "$made/guest" "$(sed -nE '/^snd_/s/.* interrupted at (0x[0-9a-f]+)$/\1/p' "$made/said" | head -n 1)" | head -n 1; }

sweep() { # ARCHIVE WORD..
    local unswept
    build "$@" && boot || return 1
    unswept=$(comm -23 <(sed -nE 's/^uint64_t (snd_[a-z_]+)\(.*/\1/p' host/include/snd.h | sort -u) <(awk '{ print $1 }' "$made/said" | sort -u))
    [ -z "$unswept" ] || { echo "entries of snd.h that the session does not call: ${unswept//$'\n'/ }" && return 1; }
}

[ -r "$archive" ] || { echo "$archive is not there: make it by tools/staticlib"; exit 1; }
command -v ar >/dev/null || { echo "ar is not there: install binutils"; exit 1; }
[ "$(ar p "$archive" 2>/dev/null | od -An -tu1 -j18 -N1 | tr -d ' ')" = 62 ] ||
    skip "the red zone is x86-64's, and the archive is for another processor; SND_LIB may name one for x86-64"
compiler
at_hand || fetch || skip "qemu-system-x86_64 is not there and was not installed (Debian's package qemu-system-x86): the sweep was not made"
sweep "$archive" || exit 1
general=$(dirname "$archive")/no-sse/$(basename "$archive")
[ ! -r "$general" ] || { echo "with general registers only, SSE off:" && sweep "$general" -DNO_SSE; }
