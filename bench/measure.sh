# What bench/run and bench/against share, to be sourced from the root: what they need and build, and how two programs are measured on a
# file. $made is a folder that is removed at the end, $bench the measuring program; the practice files are those of bench/files.sh.
set -e -o pipefail

# Ends the script where one of these is not installed.
needs() {
    local tool
    for tool in "$@"; do
        command -v "$tool" > /dev/null || { echo "bench: $tool is missing"; exit 1; }
    done
}

needs rt cargo cc ar python3 valgrind taskset
made=$(mktemp -d)
trap 'rm -rf "$made"' EXIT

# Proves a library of a checkout and builds it: staticlib CHECKOUT LIBRARY
staticlib() {
    (cd "$1" && tests/staticlib "$2") > "$made/log" 2>&1 || { cat "$made/log"; exit 1; }
}

staticlib . baguymo
cargo build --quiet --release --offline --locked --manifest-path bench/Cargo.toml
bench=bench/target/release/bench
source bench/files.sh

# One processor for both of two programs: the last that this script may use.
core=$(taskset -cp $$ | grep -oE '[0-9]+$')

# Instructions of so many plays of a file by one program, starting and reading included.
instructions() {
    valgrind --tool=callgrind --callgrind-out-file="$made/callgrind.out" "$bench" count "$1" "$2" "$3" > "$made/log" 2>&1 ||
        { cat "$made/log" >&2; return 1; }
    sed -n 's/^summary: //p' "$made/callgrind.out"
}

# Instructions of each of so many requests or presses of a play: what two plays more cost.
of_each() {
    local once thrice
    once=$(instructions "$1" "$2" 1)
    thrice=$(instructions "$1" "$2" 3)
    echo $(((thrice - once) / (2 * $3)))
}

# Takes a file in hand, and counts the instructions of each program for each of its requests, or for each press of the button after it:
# take request|press FILE PROGRAM...
declare -A counted
declare -A plural=([request]=requests [press]=presses)
take() {
    local program
    each=$1
    file=$2
    number=$("$bench" "${plural[$each]}" "$file")
    for program in "${@:3}"; do
        counted[$program]=$(of_each "$program" "$file" "$number")
    done
}

# The line of two programs on the file in hand, each after what it is called: beside NOTE NAME PROGRAM NAME PROGRAM
beside() {
    local first second ratio fewer
    read -r first second ratio < <(taskset -c "$core" "$bench" time "$3" "$5" "$file" "$number")
    ratio=$(awk "BEGIN { printf \"%.3g\", $ratio }")
    fewer=$(awk "BEGIN { printf \"%.3g\", ${counted[$5]} / ${counted[$3]} }")
    echo "$(basename "$file" .scap), $number ${plural[$each]}$1:" \
        "$2 $first a second, $4 $second, ratio $ratio;" \
        "instructions a $each: $2 ${counted[$3]}, $4 ${counted[$5]}, ratio $fewer"
}
