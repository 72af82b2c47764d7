# Every .rt and .antt file is as `rt fmt` lays it out.
cd "$(dirname "$0")/.." || exit 2
rt=$(command -v rt) || { echo "rt is not on the PATH: install the Rattle kit (rt version: $(cat .ci/kit))" && exit 1; }
shopt -s nullglob
mapfile -d '' -t files < <(find crates/*/{src,specs,proofs} \( -name '*.rt' -o -name '*.antt' \) -type f -print0 | sort -z)
[ "${#files[@]}" -gt 0 ] || { echo "there is no .rt or .antt file" && exit 1; }
"$(dirname "$(readlink -f "$rt")")/rattle" fmt --check "${files[@]}" || { echo "run rt fmt in the folders of these crates" && exit 1; }
echo "${#files[@]} files are laid out as rt fmt does"
