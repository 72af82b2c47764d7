# Compares every size, offset and number with the system's header linux/virtio_snd.h, and the widths of the formats with its comments, as in
# `VIRTIO_SND_PCM_FMT_S20, /* 20 / 32 bits */`. Ours are what the program `numbers` prints, which rt ci
# holds to crates/numbers/stdout.
cd "$(dirname "$0")/.." || exit 2
made=$(mktemp -d) || exit 2
trap 'rm -rf "$made"' EXIT
if ! command -v gcc >/dev/null; then
    echo "gcc is missing: install Debian's package gcc"
    exit 1
fi
if ! echo '#include <linux/virtio_snd.h>' | gcc -E - >/dev/null 2>&1; then
    echo "the header linux/virtio_snd.h is missing: install Debian's package linux-libc-dev"
    exit 1
fi
gcc -Wall -Werror -o "$made/header" tests/header.c && "$made/header" >"$made/theirs" || exit 1
file=$(echo '#include <linux/virtio_snd.h>' | gcc -M -x c - | tr ' ' '\n' | grep '/linux/virtio_snd.h$')
sed -n 's|^[[:space:]]*VIRTIO_SND_\(PCM_FMT_[A-Z0-9_]*\).*/\* *\([0-9]*\) / *\([0-9]*\) bits \*/$|\1 \2 \3|p' "$file" >"$made/widths"
if [ "$(wc -l <"$made/widths")" -ne 25 ]; then
    echo "$file does not have the widths of 25 formats in its comments"
    exit 1
fi
# below a format's number and its mask
awk 'NR == FNR { sample["VIRTIO_SND_" $1] = $2; storage["VIRTIO_SND_" $1] = $3; next }
    { print }
    $1 ~ /_PCM_FMT_/ { format = $1; next }
    format != "" { print "sample " sample[format]; print "storage " storage[format]; format = "" }' "$made/widths" "$made/theirs" >"$made/all"
mv "$made/all" "$made/theirs"
if [ ! -s "$made/theirs" ]; then
    echo "the header's program printed nothing"
    exit 1
fi
# what VirtIO 1.3 adds stands last: the header is that of 1.2
sed '/^VirtIO 1.3$/,$d' crates/numbers/stdout >"$made/ours"
if ! diff -u "$made/theirs" "$made/ours"; then
    echo "the lines with - are linux/virtio_snd.h's, those with + ours"
    exit 1
fi
echo "$(wc -l <"$made/theirs") lines agree with linux/virtio_snd.h"
