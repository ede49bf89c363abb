# What bin/build and bin/compile share: which sources the program is made of, and whether one was made of them as they stand.
# `top` is the folder of the checkout.

# fail STATUS TEXT: tells why there is no program, and ends.
fail() {
    echo "fuun: $2" >&2
    exit "$1"
}

# sources WORDS: the files that the program is made of, as far as find takes them by these words.
sources() {
    (cd "$top" && find crates.txt crates/*/src crates/*/specs crates/*/proofs -type f "$@")
}

# One sum over the names and contents of these files.
sum_of_sources() {
    (cd "$top" && sources | LC_ALL=C sort | xargs cksum | cksum)
}

# is_current PROGRAM STAMP: whether the program was made of the sources as they stand, by the sum in the stamp. Where a source
# is newer than that, the contents of all decide, so a copy of a checkout is as good as the checkout.
is_current() {
    [ -x "$1" ] && [ -f "$2" ] || return 1
    [ -n "$(sources -newer "$2" | head -n 1)" ] || return 0
    [ "$(sum_of_sources)" = "$(cat "$2")" ] || return 1
    touch "$2" 2>/dev/null || true
}

# Ends where the program can't be made here: with no rt, or in a folder that can only be read.
can_be_made() {
    command -v rt >/dev/null ||
        fail 127 "the command rt of the Rattle kit is not on the PATH; README.md says under 'Run it' what that is"
    [ -w "$top/crates/fuun" ] || fail 126 "$top can't be written to, and the program is not built there: build a copy of it"
}
