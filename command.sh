# shellcheck shell=sh disable=SC2154 # set by the command
# What the commands that run a proved program share: kernel-run and kernel-image read it. They set name, that of the command, program, that
# of its crate, and root, the folder of this file.

wrong() { printf '%s: %s (./%s --help)\n' "$name" "$*" "$name" >&2; exit 2; }
die() { printf '%s: %s\n' "$name" "$*" >&2; exit 1; }

# Asks for both standard streams, and makes a folder for this run.
begin() { # WHAT comes by standard input, and HOW the command is called
    [ ! -t 0 ] || wrong "$1 by standard input, which is a terminal here: $2"
    (: 3<&0) 2>/dev/null || die "standard input cannot be read: it is closed"
    (: 3>&1) 2>/dev/null || die "standard output cannot be written: it is closed"
    room=$(mktemp -d) || exit 1
    trap 'rm -rf "$room"' EXIT
    trap 'exit 2' HUP INT TERM
}

# Proves and builds the program where it is missing. What rt says goes to a log, and each crate is named as it begins.
build() {
    built=$root/crates/$program/out/$program
    [ ! -x "$built" ] || return 0
    command -v rt >/dev/null 2>&1 || die "crates/$program/out/$program is not built, and there is no rt to build it with"
    echo "$name: proving and building crates/$program/out/$program, which takes some minutes; each crate is named as it begins" >&2
    mkdir -p "$root/target" || exit 1
    # rt runs what it has built, here on no input.
    { (cd "$root/crates/$program" && rt run) </dev/null 2>&1; echo $? >"$room/status"; } | tee "$root/target/$name.log" | while IFS= read -r line; do
        case $line in 'rt: chose --jobs '*) printf '%s: %s\n' "$name" "${line##* }" >&2 ;; esac
    done
    [ "$(cat "$room/status")" = 0 ] && [ -x "$built" ] || die "rt run of $program failed: see target/$name.log"
}

# Runs the program, which is for x86-64.
step() { # [WORD]
    "$built" "$@"
}
