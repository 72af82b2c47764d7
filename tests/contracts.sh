# Every public function of a library has an `ensures`, and none has a `requires`.
cd "$(dirname "$0")/.." || exit 2
sources=$(for file in crates/*/src/*.rt; do [ -f "$(dirname "$file")/main.rt" ] || echo "$file"; done)
found=$(
    for file in $sources; do
        awk -v file="$file" '
            function judge() {
                if (demands) print file ": " name ": has a requires"
                if (!promises) print file ": " name ": has no ensures"
                inside = 0
            }
            /^ *pub (extern "C" )?fn / { name = $0; sub(/^ */, "", name); inside = 1; demands = 0; promises = 0 }
            inside && /^ *requires/ { demands = 1 }
            inside && /^ *ensures/ { promises = 1 }
            inside && /^ *\{ *$/ { judge() }
            inside && /\{ *$/ && !/requires|ensures/ { judge() }
        ' "$file"
    done
)
if [ -n "$found" ]; then
    echo "$found"
    exit 1
fi
echo "$(cat $sources | grep -cE '^ *pub (extern "C" )?fn ') public functions of libraries: each has an ensures, none a requires"
