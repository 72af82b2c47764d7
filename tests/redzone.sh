# An interrupt on the stack that it meets does no harm: a session of calls comes out the same where the bytes below the stack pointer are overwritten at
# every single instruction of the archive (tests/redzone.c); one function that does keep a number there is seen. tests/sweep.sh does it with interrupts, in QEMU.
cd "$(dirname "$0")/.." || exit 2
[ "$(uname -m)" = x86_64 ] || { echo "the red zone is x86-64's: nothing to try on $(uname -m)"; exit 77; }
for tool in gcc ld; do
    command -v $tool >/dev/null || { echo "$tool is not there: install gcc and binutils"; exit 1; }
done
archive=${SND_LIB:-target/staticlib/libconsole.a}
[ -r "$archive" ] || { echo "$archive is not there: make it by tools/staticlib"; exit 1; }
made=$(mktemp -d) || exit 2
trap 'rm -rf "$made"' EXIT
# All code of the archive in one section, whose ends the linker knows. (objcopy can rename no section whose name has a `=`, as that of a
# function for one width has.)
echo 'SECTIONS { driver : { *(.text .text.*) } }' >"$made/one_section.ld"
ld -r --whole-archive -T "$made/one_section.ld" -o "$made/driver.o" "$archive" || exit 1
gcc -std=c11 -Wall -Wextra -Werror -O1 -I host/include -o "$made/redzone" tests/redzone.c "$made/driver.o" || exit 1
"$made/redzone"
case $? in
0) ;;
2) echo "this machine lets no process step another: the test could not be made" && exit 77 ;;
*) exit 1 ;;
esac
"$made/redzone" self >"$made/said"
[ $? -eq 1 ] && grep -q '^call 1, keeps_below: it came out otherwise$' "$made/said" || { cat "$made/said"; echo "a function that keeps a number below its stack pointer was not seen"; exit 1; }
