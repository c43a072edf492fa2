# What the commands share: how they take their words, speak and end, and how they come by the programs that they run.
# Each command reads this file, with `name` its own name and `top` the folder above bin/ that symlinks lead to. It is a checkout,
# where what is run is proved from the source as it is now; or it was written by swarmbanner-install, and has `programs`.
# Exit status of a command, the highest of several files: 0 and 1 are the answer's, 2 refused, 3 it could not be tried.
# shellcheck shell=sh disable=SC2154

status=0
records=$top/target/commands
rust=$records/rust
outputs='crates/[^/]*/out'

# ---- speaking: standard output has answers alone

say() {
    printf '%s\n' "$1" 2> /dev/null || die 'standard output cannot be written to'
}

complain() {
    printf '%s: %s\n' "$name" "$1" >&2
}

die() {
    complain "$1"
    exit 3
}

usage() {
    die "$1; $name --help says how it is called"
}

raise() {
    [ "$1" -le "$status" ] || status=$1
}

# ---- words

# Looks at all words before anything is built: takes the options by the command's own `option`, counts the files. `--` ends the
# options, `-` is standard input, and so is no file at all.
look() {
    { true 3>&1; } 2> /dev/null || die 'standard output is closed'
    files=0 inputs=0 ended=no
    for word; do
        case $ended$word in
        no--) ended=yes ;;
        no--help | no-h | no--version) answer_about "$word" ;;
        no-?*) option "$word" || usage "there is no option $word" ;;
        *) files=$((files + 1)) && [ "$word" != - ] || inputs=$((inputs + 1)) ;;
        esac
    done
    [ "$files" -gt 0 ] || inputs=1
    [ "$inputs" = 0 ] || { true 3<&0; } 2> /dev/null || die 'standard input is closed'
}

answer_about() {
    case $1 in
    --version) say "$(version)" ;;
    *) say "$(help)" ;;
    esac
    exit 0
}

# each CALL WORD..: calls it with each file among the words
each() {
    call=$1 ended=no
    shift
    for word; do
        case $ended$word in
        no--) ended=yes ;;
        no-?*) ;;
        *) "$call" "$word" ;;
        esac
    done
}

# The product, the kit that proves it, the layout of the tables that C callers see.
version() {
    if is_installed; then
        cat -- "$top/installed"
        return
    fi
    printf 'swarmbanner %s\n' "$(sed -n 's/^version = "\(.*\)"$/\1/p' "$top/bindings/Cargo.toml")"
    printf 'kit %s\n' "$(rt version 2> /dev/null || echo 'not on the path')"
    printf 'layout %s\n' "$(sed -n 's/^#define SWARMBANNER_LAYOUT \([0-9]*\)u$/\1/p' "$top/include/swarmbanner.h")"
}

# ---- programs

is_installed() {
    [ ! -e "$top/crates.txt" ] && [ -f "$top/installed" ]
}

# Sets `program` to the proved program.
need_checker() {
    program=$top/programs/swarmbanner
    is_installed || { program=$top/target/bin/swarmbanner && need_proved "$program" run swarmbanner; }
    [ -x "$program" ] || die "$program is not there"
}

# Sets `tool` to a program over the Rust binding.
need_tool() {
    tool=$top/programs/$1
    is_installed || { tool=$rust/release/$1 && need_rust "$1"; }
    [ -x "$tool" ] || die "$tool is not there"
}

digest() {
    sha256sum | cut -c 1-64
}

# files_in FOLDER PART..: each file with its digest, in a fixed order. Names are there too, so a moved file counts. A link would say
# nothing of what it leads to, and rt refuses it. What rt makes lies in crates/NAME/out, and is no source.
files_in() {
    odd=$(cd "$1" && shift && find "$@" -regex "$outputs" -prune -o ! -type f ! -type d -print 2> /dev/null) || die "the source in $1 cannot be read"
    [ -z "$odd" ] || die "$1/$odd is neither a file nor a folder, so no proof is of what it has"
    found=$(cd "$1" && shift && find "$@" -regex "$outputs" -prune -o -type f -exec sha256sum {} + 2> /dev/null) || die "the source in $1 cannot be read"
    printf '%s\n' "$found" | LC_ALL=C sort
}

# A digest of all that a proof depends on.
source_digest() {
    command -v rt > /dev/null || die 'rt, the Rattle kit, is not on the path'
    kit=$(rt version < /dev/null 2> /dev/null) || die 'rt, the Rattle kit, does not say its version'
    parts=$(files_in "$top" crates.txt crates) || exit 3
    printf '%s\n' "$kit" "$(uname -m)" "$parts" | digest
}

# .. and of what the Rust programs are made from beside the library
rust_digest() {
    parts=$(files_in "$top/bindings" Cargo.toml Cargo.lock rust explain draw) || exit 3
    printf '%s\n' "$parts" | digest
}

# is_made FILE DIGEST: it is the file that was made from what has this digest, byte for byte. Nothing is written to find that out,
# so what is built can be used where nothing can be written.
is_made() {
    [ -f "$1" ] && [ -r "$1" ] && [ -r "$records/${1##*/}.made" ] && [ "$(cat "$records/${1##*/}.made")" = "$2 $(digest < "$1")" ]
}

note_made() {
    printf '%s %s\n' "$2" "$(digest < "$1")" > "$records/${1##*/}.made"
}

# need_proved FILE WORD CRATE: rt WORD, in the crate's folder, makes the file, unless it was made from the source as it is. `run` makes
# a program, which then runs on an empty input; `lib` a static library.
need_proved() {
    source=$(source_digest) || exit 3
    is_made "$1" "$source" || locked prove "$@"
    is_made "$1" "$source" || die "$1 was not made from the source as it is"
}

# Called with the lock, which another build may have held until now. rt goes by the source alone, so what it made before, which
# someone may have changed, goes first.
prove() {
    file=$1 made=$top/crates/$3/out/${1##*/}
    ! is_made "$file" "$source" || return 0
    rm -f "$made" "$made.stamp"
    complain 'proving what is not proved yet, some minutes the first time'
    progress "$2" "$3" || die "not proved; $records/log has what rt said"
    [ "$(source_digest)" = "$source" ] || die 'the source changed while it was proved: call again'
    [ -f "$made" ] || die "rt made no $made"
    mkdir -p "${file%/*}" && cp "$made" "$file.new" && mv "$file.new" "$file" || die "$file cannot be written"
    note_made "$file" "$source"
}

# Runs rt and says, as it goes, which crates it proved or not: it names a crate, and on a later line says how that went. Its status
# comes by the same pipe as its words, as the last line. Standard input may be a session file, so no build gets it.
progress() {
    crate=$2
    { cd "$top/crates/$crate" && rt "$1" < /dev/null 2>&1; echo "status $?"; } | while IFS= read -r line; do
        printf '%s\n' "$line" >&3
        case $line in
        'crate '*:*) crate=${line#crate } crate=${crate%%:*} ;;
        'logic=proved'*) complain "$crate is proved" ;;
        'logic='* | 'rt: '*'NOT PROVED'* | 'rt: '*FAILED*) complain "${line#rt: }" ;;
        esac
        [ "$line" = 'status 0' ]
    done 3> "$records/log"
}

# need_rust NAME: builds the program, and the library under it, unless it was made from what is there
need_rust() {
    source=$(source_digest) || exit 3
    made_from=$(rust_digest) || exit 3
    made_from=$source-$made_from
    is_made "$rust/release/$1" "$made_from" || locked build_rust "$1"
    is_made "$rust/release/$1" "$made_from" || die "$rust/release/$1 was not made from the source as it is"
}

# From nothing: cargo goes by the times of files, which say less than their digests.
build_rust() {
    ! is_made "$rust/release/$1" "$made_from" || return 0
    command -v cargo > /dev/null || die 'cargo, which this needs beside the kit, is not on the path'
    prove "$top/target/staticlib/libcapi.a" lib capi
    complain 'building the programs over the library'
    rm -rf "$rust"
    (cd "$top/bindings" && env -u SWARMBANNER_LIB_DIR -u CARGO_BUILD_TARGET cargo build --quiet --release --offline \
        --target-dir "$rust" --bins -p swarmbanner-draw -p swarmbanner-explain) < /dev/null > "$records/log" 2>&1 ||
        die "not built; $records/log has what cargo said"
    [ "$(source_digest)-$(rust_digest)" = "$made_from" ] || die 'the source changed while it was built: call again'
    for made in "$rust"/release/swarmbanner-*; do
        [ ! -x "$made" ] || note_made "$made" "$made_from"
    done
}

# One build at a time; whoever waits finds it done.
locked() {
    if ! mkdir -p "$records" 2> /dev/null || ! [ -w "$records" ]; then
        die "what is there is not built, and $top cannot be written to"
    fi
    command -v flock > /dev/null || die 'flock (util-linux) is not on the path'
    {
        flock -n 9 || { complain 'waiting for another build' && flock 9; }
        "$@"
    } 9> "$records/lock"
}
