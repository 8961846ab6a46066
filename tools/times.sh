#!/bin/sh
# What each crate costs the gate from nothing: processor seconds of its proof with its tests (which prove it once more) and of
# building its program, and of its must-fail edits. It writes them into the price list of docs/GATE.md. It runs the gate once on
# copies of the checkout and of the toolchain, so that nothing kept is used, and notes each process that proves or
# builds. Run it on a quiet machine; it takes as long as the first gate of a new machine.
# Words: the crates to measure, and all below them are proved too; none: all.
set -eu
cd "$(dirname "$0")/.."
top=$PWD
work=$(mktemp -d)
trap 'rm -rf "$work"' EXIT
kit=$(dirname "$(rt doc)")
mkdir "$work/kit" "$work/top"
cp -al "$kit" "$work/kit/rattle" 2>/dev/null || cp -a "$kit" "$work/kit/rattle"
git ls-files -z -- crates crates.txt HANDLES | xargs -0 cp --parents -t "$work/top"

# In the place of each program that proves or builds, one that runs it and notes what it took.
bin=$work/kit/rattle/bin
mkdir "$work/real"
for program in rattle rattle-seed rattle-link; do
    mv "$bin/$program" "$work/real/$program"
    cat > "$bin/$program" <<END
#!/bin/sh
for word; do
    if [ "\${before-}" = --crate-name ]; then name=\$word; fi
    if [ "\$word" = --test ]; then kind=tests; fi
    before=\$word
done
exec /usr/bin/time -a -o "$work/spent" -f "%U %S $program \${name--} \${kind-proof} \$PWD" "$work/real/$program" "\$@"
END
    chmod +x "$bin/$program"
done

cd "$work/top"
for folder in crates/*/must-fail; do
    echo "$(basename "$(dirname "$folder")") $(ls "$folder" | wc -l)"
done > "$work/edits"
git init -q .
start=$(date +%s)
"$bin/rt" ci "$@" > "$work/log" 2>&1 || { tail -5 "$work/log" >&2; echo "the gate didn't pass" >&2; }
end=$(date +%s)

# Edits are tried in folders of their own; every other process proves a crate, its tests or its program.
awk '
    NF == 6 {
        column = $6 ~ /\/rt-edit-/ ? "edits" : "proof"
        spent[$4, column] += $1 + $2
        seen[$4]
    }
    END { for (name in seen) printf "%s %d %d\n", name, spent[name, "proof"], spent[name, "edits"] }' "$work/spent" > "$work/prices"

# The rows of these crates in the table, with the number of their edits, and a row for each crate that it lacks.
awk -v names="$(awk '!/^ *(#|$)/ { sub(/[: ].*/, ""); print }' crates.txt)" '
    function row(name, edits) {
        edits = price[name, "edits"] ? price[name, "edits"] " (" many[name] ")" : ""
        return "| `" name "` | " price[name, "proof"] " | " edits " |"
    }
    FILENAME == ARGV[1] { price[$1, "proof"] = $2; price[$1, "edits"] = $3; measured[$1]; next }
    FILENAME == ARGV[2] { many[$1] = $2; next }
    /^\| Crate \| Proof \| Edits \|$/ { inside = 1 }
    inside && /^\| `/ { split($0, part, "`"); old[part[2]] = $0; next }
    inside && /^$/ {
        count = split(names, crate, "\n")
        for (at = 1; at <= count; at++) {
            name = crate[at]
            if (name in measured) print row(name)
            else if (name in old) print old[name]
            else print "| `" name "` |  |  |"
        }
        inside = 0
    }
    { print }' "$work/prices" "$work/edits" "$top/docs/GATE.md" > "$work/gate"
cp "$work/gate" "$top/docs/GATE.md"
awk -v wall=$((end - start)) '{ all += $2 + $3 } END { printf "%d seconds of a processor, %d by the clock\n", all, wall }' "$work/prices"
