# For the scripts that measure, which set `bench`: where programs and captures are, how programs are built, and how a table comes
# into docs/SPEED.md.
out=$bench/out
avtp=$bench/../crates/avtp/out/avtp
stream=0200000000010001

# Compiles the yardsticks and the programs that measure. Those are linked without shared libraries, because the memory of the
# program that starts another counts as the other's least.
build_programs() {
    if ! [ -x "$avtp" ]; then
        echo "${0##*/}: there is no proved program yet: scripts/prove makes it" >&2
        exit 1
    fi
    mkdir -p "$out"
    for source in "$bench"/yardsticks/*.rs "$bench"/measuring/*.rs; do
        case $source in
            */yardsticks/*) linking=-crt-static ;;
            *) linking=+crt-static ;;
        esac
        if grep -q '^fn main' "$source"; then
            name=${source##*/}
            rustc --edition 2024 -O -C target-feature=$linking -o "$out/${name%.rs}" "$source"
        fi
    done
}

# Removes what is made for a measurement.
remove_made() {
    rm -f "$out"/*.pcap "$out"/*.pcapng "$out"/*.raw "$out"/*.h264 "$out"/*.txt "$out"/callgrind.*
}
trap remove_made EXIT

# repeat BYTES FILE SIZE: repeats bytes, in the words of printf, up to a size.
repeat() {
    printf "$1" >"$2"
    while [ "$(wc -c <"$2")" -lt "$3" ]; do
        cat "$2" "$2" >"$out/twice.raw"
        mv "$out/twice.raw" "$2"
    done
    truncate -s "$3" "$2"
}

# describe_machine: the line above a table.
describe_machine() {
    echo "$(sed -n 's/^model name.*: //p' /proc/cpuinfo | head -n 1), $(nproc) processors; $(rustc --version | cut -d ' ' -f 1-2)"
}

# put_table NAME FILE: puts a table into docs/SPEED.md, between the comments that have its name.
put_table() {
    speed=$bench/../docs/SPEED.md
    awk -v name="$1" -v table="$2" '
        $0 == "<!-- end of " name " -->" { skip = 0 }
        !skip { print }
        index($0, "<!-- " name ": made by ") == 1 {
            skip = 1
            print ""
            while ((getline line < table) > 0) print line
            print ""
        }' "$speed" >"$out/SPEED.md"
    mv "$out/SPEED.md" "$speed"
}
