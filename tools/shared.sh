# What the tools in sh share. Each sets `tool`, its name, and `top`, the repository's folder, and then reads this file.

# One line on standard error, and status 2.
fail() {
    printf '%s: %s\n' "$tool" "$1" >&2
    exit 2
}

unknown() {
    fail "unknown option $1; --help tells the options"
}

# The comment at a tool's head is its help.
help() {
    sed -n '2,/^[^#]/s/^# \{0,1\}//p' "$0"
    exit 0
}

# Two builds at once would write the same files. A build's own processes hold the lock too, until the last of them has ended.
lock() {
    exec 9>"$1"
    command -v flock >/dev/null || return 0
    flock -n 9 && return
    echo 'Another build is under way; this one waits for it.' >&2
    flock 9
}

# Whether a file is there and no source of the crates is newer; an edit that must fail is none, nor is what rt makes in a crate's out/.
current() {
    [ -e "$1" ] && [ -z "$(find "$top/crates" "$top/crates.txt" \( -name must-fail -o -name out \) -prune -o -type f -newer "$1" -print -quit)" ]
}
