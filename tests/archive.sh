# The static library has the entries of host/include/snd.h and no others, needs nothing but memcpy, memset and memmove, has no static data that can be
# written, and keeps nothing below its stack pointer; its other form on x86-64 names no SSE register besides. An archive that does what this one must not
# is seen.
cd "$(dirname "$0")/.." || exit 2
tools/archive || exit 1
[ "$(uname -m)" = x86_64 ] || exit 0
tools/staticlib --no-sse >/dev/null || { echo "the archive with general registers only could not be made"; exit 1; }
tools/archive --no-sse || exit 1
made=$(mktemp -d) || exit 2
trap 'rm -rf "$made"' EXIT
printf '%s\n' '.globl keeps_below' 'keeps_below:' 'movq %rdi, -8(%rsp)' 'leaq -16(%rsp), %rsp' 'movups %xmm0, (%rsp)' 'leaq 16(%rsp), %rsp' 'movq -8(%rsp), %rax' 'ret' \
    '.data' '.quad 1' '.comm shared,16,8' >"$made/below.s"
gcc -c -o "$made/below.o" "$made/below.s" && ar rc "$made/libbelow.a" "$made/below.o" || exit 1
said=$(tools/archive --no-sse "$made/libbelow.a") && { echo "tools/archive takes an archive that it must not"; exit 1; }
grep -q '^RED ZONE    2 keeps_below' <<<"$said" && grep -q '^SSE USED    1 keeps_below' <<<"$said" && grep -q '^STATIC DATA 8 .data 16 shared' <<<"$said" || { echo "tools/archive does not name what is wrong: $said"; exit 1; }
