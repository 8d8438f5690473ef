# shellcheck shell=sh
# What the commands share. The script that takes this in has set `root`, the repository's folder, and `me`, its own name.
: "${root:?}" "${me:?}"

tell() { printf '%s: %s\n' "$me" "$*" >&2 || :; }
die() { tell "$@"; exit 2; }
has() { command -v "$1" >/dev/null 2>&1; }

# Every line of a command's own goes through here: a full disk or a closed output is no success.
put() { printf '%s\n' "$1" || die 'standard output could not be written'; }

# A closed output loses what is printed; and a descriptor that is closed would be the next file's that is opened.
check_output() { (exec 9>&1) 2>/dev/null || die 'standard output is closed'; }
check_input() { (exec 9<&0) 2>/dev/null || die 'standard input is closed'; }

# What stands here was made from what, as far as the folder knows.
version() {
    revision=unknown
    if [ -e "$root/.git" ] && found=$(git -C "$root" rev-parse --short=12 HEAD 2>/dev/null); then
        revision=$found
        [ -z "$(git -C "$root" status --porcelain 2>/dev/null)" ] || revision="$revision, changed since"
    fi
    toolchain=$(rt version 2>/dev/null) || toolchain='no toolchain'
    put "cellweaver, revision $revision; $toolchain"
}

# ---- what rt makes, and whether it is made from the sources as they are

# The sum of all that a proved program is made from: the toolchain, the list of crates, and every file of theirs.
sum_of_sources() {
    (
        cd "$root" || exit
        rt version
        cat crates.txt
        find crates/*/src crates/*/specs crates/*/proofs -type f -exec sha256sum {} + | LC_ALL=C sort
    ) | sha256sum
}

# The stamp has the sum of what was made too: rt may have made it anew since, from other sources.
stamp_of() { printf '%s %s\n' "$(sum_of_sources)" "$(sha256sum <"$1")"; }
is_fresh() { [ -f "$1" ] && [ -f "$2" ] && [ "$(cat "$2")" = "$(stamp_of "$1")" ]; }

# The crates of ours that NAME is made of, itself among them, each after those that it stands on: rt takes them in this order.
list_crates() {
    awk -v name="$1" '
        function visit(crate,    list, n, i) {
            if (!(crate in needs) || crate in seen) return
            seen[crate] = 1
            n = split(needs[crate], list, " ")
            for (i = 1; i <= n; i++) visit(list[i])
            print crate
        }
        { sub(/#.*/, "") }
        split($0, part, ":") == 2 { sub(/ .*/, "", part[1]); needs[part[1]] = part[2] }
        END { visit(name) }' "$root/crates.txt"
}

# Keeps all that rt says in a log, and tells of each crate that it has proved, and of how many are proved then: all those before it are, since rt
# passes over what it has proved before. Its last line is the status of rt.
follow() { # LOG CRATES
    : >"$1"
    crate='' status=2 all=$(printf '%s\n' "$2" | wc -l)
    while IFS= read -r line; do
        case $line in
        'rt: chose '*' for '*) crate=${line##* } ;;
        'logic=proved '*) tell "$(printf '%s\n' "$2" | sed -n "/^$crate\$/=") of $all proved: $crate" ;;
        'status '*)
            status=${line#status }
            continue
            ;;
        esac
        printf '%s\n' "$line" >>"$1"
    done
    return "$status"
}

# Has rt make a file anew unless it is made from the sources as they are.
make() { # NAME FILE COMMAND..
    name=$1 product=$2 stamp=$root/target/made/$1.stamp log=$root/target/made/$1.log
    shift 2
    has rt || die 'rt, of the Rattle toolchain, is not found'
    ! is_fresh "$product" "$stamp" || return 0
    crates=$(list_crates "$name")
    [ -n "$crates" ] || die "there is no crate $name"
    mkdir -p "$root/target/made"
    all=$(printf '%s\n' "$crates" | wc -l)
    tell "proving and building $name, $all crates: about $(((all * 16 + 59) / 60)) minutes the first time on two processors, less where little changed"
    tell "all that rt says goes to ${log#"$root"/}"
    if ! { cd "$root/crates/$name" && "$@" 2>&1 </dev/null && echo 'status 0' || echo 'status 1'; } | follow "$log" "$crates"; then
        tell "$name is not built; the end of ${log#"$root"/}:"
        tail -n 5 "$log" >&2
        return 2
    fi
    stamp_of "$product" >"$stamp"
}

# rt runs what it has built too, on no input here; what it says itself is on its standard error then.
prove_program() { rt run >/dev/null; }
make_program() { make "$1" "$(program_of "$1")" prove_program; }
make_library() { make cellweaver_c "$library" rt lib; }

# ---- what is made: programs for x86-64 Linux, and a library

library=$root/crates/cellweaver_c/out/libcellweaver_c.a
program_of() { printf '%s\n' "$root/crates/$1/out/$1"; }

run_program() { # NAME [WORDS..]
    program=$(program_of "$1")
    shift
    "$program" "$@"
}

# ---- a C compiler for x86-64, which Debian has
cc=x86_64-linux-gnu-gcc

links() { # FOLDER
    printf '#include <stdio.h>\nint main(void) { return puts("") < 0; }\n' | "$cc" -static -x c -o "$1/links" - 2>/dev/null
}
compiler_packages='gcc libc6-dev'

as_root() { if [ "$(id -u)" -eq 0 ]; then "$@"; else sudo "$@"; fi; }
refresh() { # FOLDER
    as_root apt-get update >"$1/install.log" 2>&1 || die "apt-get update failed: $1/install.log"
}
install() { # FOLDER PACKAGE..
    install_log=$1/install.log
    shift
    has apt-get || die "not found: $* (and no apt-get to install them)"
    tell "installing $*"
    as_root apt-get install -y --no-install-recommends "$@" >"$install_log" 2>&1 || { tail "$install_log" >&2; die "not installed: $*"; }
}

# What a compiler needs, installed where it is missing.
need_compiler() { # FOLDER
    ! links "$1" || return 0
    refresh "$1"
    # shellcheck disable=SC2086 # words
    install "$1" $compiler_packages
}

# ---- the planner over the library, which lends a design all the work that it wants: the plan program has 65,536 bytes
make_large() {
    large_folder=$root/target/large
    mkdir -p "$large_folder"
    make_library || return 2
    need_compiler "$large_folder"
    "$cc" -std=c11 -O2 -static -I"$root/include" -o "$large_folder/plan" "$root/examples/plan.c" "$library" >&2
}
run_large() { "$root/target/large/plan" "$1"; } # FILE
