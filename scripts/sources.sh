# For scripts that set `top`: where the programs are, the checksum of the sources, and whether a program was made of them.

# The path of the proved program with this name, avtp or avtp-report.
program_of() {
    crate=$(printf '%s' "$1" | tr - _)
    echo "$top/crates/$crate/out/$crate"
}

# The checksum of the sources with these names.
sum_of() {
    (cd -- "$top" && find crates crates.txt -name out -prune -o -type f \( "$@" \) -print0) |
        LC_ALL=C sort -z | (cd -- "$top" && xargs -0 sha256sum) | sha256sum | cut -c 1-64
}

# The contents of a program's note: the checksums of the program and of the sources.
note_of() {
    echo "$(sha256sum <"$1" | cut -c 1-64) $(sum_of -name '*.rt' -o -name '*.antt' -o -name crates.txt)"
}

# Whether the proved program with this name was made of these sources, as the gate or scripts/prove has noted.
is_current() {
    program=$(program_of "$1")
    [ -x "$program" ] && [ -f "$program.note" ] && [ "$(cat "$program.note")" = "$(note_of "$program")" ]
}
