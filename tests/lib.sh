# What scripts of tests/ have in common: each reads this file first, counts `failures` and ends with 1 where there are any.

# Compares two texts, and says which row differs.
same() {
    if [ "$2" = "$3" ]; then return; fi
    failures=$((failures + 1))
    printf 'differs: %s\n  wanted: %s\n  found:  %s\n' "$1" "$3" "$2"
}

# Compares a file with a text: the row's name, the file, its text.
file() { same "$1" "$(cat "$2" 2>&1)" "$3"; }

# Whether a file isn't there: the row's name, the file.
gone() { same "$1" "$(ls "$2" 2>/dev/null)" ""; }

# Says what is wrong with the step that is tried, `what`.
wrong() {
    failures=$((failures + 1))
    printf 'wrong: %s: %s\n' "$what" "$1"
}
