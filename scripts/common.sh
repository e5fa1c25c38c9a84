# Sourced by scripts that have changed to the root of the repository: the kit, the crates, the archives and the programs. The kit is for
# x86-64, and so are programs in Rattle; the archives are for four machines, and what links one takes that of its own machine. Assumes `rt`
# on the PATH, cargo for the command, and a POSIX shell.

machine=$(uname -m)
archives=target/archives
archive=$archives/$machine/libvaskunoor.a
command -v cargo >/dev/null || PATH=$PATH:${HOME:-}/.cargo/bin

# the kit, and its compiler with what belongs to it
kit() {
    dirname "$(rt doc)"
}
toolchain() {
    printf '%s/toolchain\n' "$(kit)"
}

# ---- the crates

# sources CRATE..: what a proof of them reads, and not what rt made of it
sources() {
    for name; do
        find "crates/$name/src" "crates/$name/specs" "crates/$name/proofs" -prune 2>/dev/null
    done
}

# is MADE missing, or older than something under the other words?
is_stale() {
    made=$1
    shift
    [ ! -e "$made" ] || [ -n "$(find "$@" -newer "$made" | head -n 1)" ]
}

# uses CRATE: the libraries on its line of crates.txt
uses() {
    sed -n "s/#.*//; s/^$1\( [^:]*\)\{0,1\}://p" crates.txt
}

# below CRATE: the crates of the repository that it uses, and those that these use
below() {
    awk -v crate="$1" '
        { sub(/#.*/, ""); name = $1; sub(/:$/, "", name); listed[name] = 1; sub(/^[^:]*:/, ""); uses[name] = $0 }
        function walk(name,    many, list, i) {
            many = split(uses[name], list, " ")
            for (i = 1; i <= many; i++) if (list[i] in listed && !(list[i] in found)) { found[list[i]] = 1; print list[i]; walk(list[i]) }
        }
        END { walk(crate) }
    ' crates.txt
}

# the library that rt built of CRATE
library() {
    printf '%s/crates/%s/out/rlib/%s.rlib\n' "$PWD" "$1" "$1"
}

# are the libraries below CRATE built, and none older than what it was made of? `rt ci` leaves them, and so do `rt check` and `rt lib`
are_built() {
    for name in $(below "$1"); do
        # shellcheck disable=SC2046
        if is_stale "$(library "$name")" $(sources "$name"); then return 1; fi
    done
}

# rattle_on COMMAND CRATE FOLDER WORDS..: `rattle COMMAND` over the text of CRATE that stands in FOLDER, and over the libraries that are built
rattle_on() {
    command=$1 crate=$2 folder=$3 root=src/lib.rt
    shift 3
    [ ! -f "$folder/src/main.rt" ] || root=src/main.rt
    for name in $(below "$crate"); do
        set -- -L "dependency=$(dirname "$(library "$name")")" "$@"
    done
    for name in std $(uses "$crate"); do
        if [ -d "crates/$name" ]; then
            set -- --extern "$name=$(library "$name")" "$@"
        else
            set -- --extern "$name=$(kit)/rlibs/$name.rlib" "$@"
        fi
    done
    set -- --antt-project "$(kit)/rattle/logic/antt-project.json" --logic-built "$(kit)/logic_built" -L "dependency=$(kit)/rlibs" "$@"
    (cd "$folder" && "$(kit)/bin/rattle" "$command" --crate-name "$crate" "$root" "$@")
}

# replace_once FILE OLD NEW: fails where OLD is not there exactly once
replace_once() {
    OLD=$2 NEW=$3 LC_ALL=C awk '
        { text = text $0 "\n" }
        END {
            old = ENVIRON["OLD"]
            at = index(text, old)
            if (!at || index(substr(text, at + 1), old)) exit 1
            printf "%s%s%s", substr(text, 1, at - 1), ENVIRON["NEW"], substr(text, at + length(old))
        }' "$1" >"$1.new" && mv "$1.new" "$1"
}

# prove CRATE COMMAND..: rt in the folder of that crate; says on standard error which crate is proved, and all that rt says where it fails
prove() {
    said=$(mktemp) || return 2
    crate=$1
    shift
    { (cd "crates/$crate" && "$@" 2>&1); printf '%s\n' "$?" >"$said.status"; } | while IFS= read -r line; do
        printf '%s\n' "$line" >>"$said"
        case $line in
        'rt: chose --jobs '*' for '*) printf '  %s\n' "${line##* for }" >&2 ;;
        esac
    done
    status=$(cat "$said.status")
    [ "$status" = 0 ] || cat "$said" >&2
    rm -f "$said" "$said.status"
    return "$status"
}

# ---- what is made of them

# the archives for all machines, from one proved module
need_archives() {
    # shellcheck disable=SC2046
    if is_stale "$archive" $(sources boot $(below boot)) crates.txt scripts/archives; then
        sh scripts/archives
    fi
}

# the program book, as `rt ci` left it, or else `rt run`
need_book() {
    # shellcheck disable=SC2046
    set -- $(sources book $(below book)) crates.txt
    is_stale target/bin/book "$@" || return 0
    if is_stale crates/book/out/book "$@"; then
        printf 'proving the program book and all that it stands on; the first time this takes some minutes\n' >&2
        prove book rt run <crates/book/stdin || return 1
    fi
    mkdir -p target/bin
    cp crates/book/out/book target/bin/book
}

# the programs book and vask in target/bin
need_programs() {
    need_book || return 1
    need_archives || return 1
    if is_stale target/bin/vask rust/Cargo.toml rust/Cargo.lock rust/vaskunoor rust/vask "$archive"; then
        printf 'building the command vask\n' >&2
        on_rust build --package vask || return 1
        cp rust/target/release/vask target/bin/vask
    fi
}

# on_rust COMMAND WORDS..: cargo on the Rust side, without a network
on_rust() {
    command=$1
    shift
    cargo "$command" --release --offline --quiet --manifest-path rust/Cargo.toml --target-dir rust/target "$@"
}
