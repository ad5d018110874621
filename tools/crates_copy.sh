# What check_controls and check_edits both do: a copy of the crates, in which one edit at a time is made and its crate is
# checked. Both read this file; `top` is the top of the repository.

# Makes the copy, which goes when the script ends.
copy_crates() {
    copy=$(mktemp -d "${TMPDIR:-/tmp}/crates.XXXXXX") || exit 70
    trap 'rm -rf "$copy"' EXIT
    trap 'exit 130' INT TERM
    mkdir "$copy/crates"
    cp "$top/crates.txt" "$copy/"
    [ ! -f "$top/HANDLES" ] || cp "$top/HANDLES" "$copy/"
    for crate in "$top"/crates/*; do
        mkdir "$copy/crates/$(basename "$crate")"
        copy_parts "$(basename "$crate")" src specs proofs
    done
}

# Copies parts of a crate, those that it has.
copy_parts() {
    crate=$1
    shift
    for part in "$@"; do
        [ ! -d "$top/crates/$crate/$part" ] || cp -R "$top/crates/$crate/$part" "$copy/crates/$crate/"
    done
}

# Makes an edit in the copy of a crate. Ends with another status than 0 where it can't be made.
make_edit() {
    python3 "$top/tools/apply_edit" "$1" "$copy/crates/$2"
}

# Checks the copy of a crate; what is said goes to the log. CHECK names the command, if it isn't `rt check`.
check_crate() {
    (cd "$copy/crates/$1" && ${CHECK:-rt check} > "$copy/log" 2>&1)
}

# What the last check said first of a place in a file.
first_errors() {
    [ ! -f "$copy/log" ] || grep -E '^(note: )?[^ ]+:[0-9]+:[0-9]+: ' "$copy/log" | head -n 5
}

# Gives the copy of a crate the files of the crate again.
restore_crate() {
    for part in src specs proofs; do
        rm -rf "$copy/crates/$1/$part"
    done
    copy_parts "$1" src specs proofs
    rm -f "$copy/log"
}
