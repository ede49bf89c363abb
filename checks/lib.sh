# What the checks share. A check reads this file first, and then stands in a folder of its own that goes with it; `fuun` is
# the program, $FUUN or the one that bin/build makes. Its last command is `finish`, which prints 'N passed, M failed'.
top=$(CDPATH= cd -- "$(dirname -- "${BASH_SOURCE[0]}")/.." && pwd)
if [ -n "${FUUN-}" ]; then
    fuun=$(command -v -- "$FUUN") || {
        echo "there is no program $FUUN" >&2
        exit 1
    }
    case $fuun in /*) ;; *) fuun=$PWD/$fuun ;; esac
else
    "$top/bin/build" || exit
    fuun=$top/crates/fuun/out/fuun
fi
room=$(mktemp -d)
trap 'rm -rf "$room"' EXIT
cd "$room" || exit 1

passed=0
failed=0
skipped=0

pass() {
    passed=$((passed + 1))
}

# fail TEXT: what went wrong.
fail() {
    failed=$((failed + 1))
    echo "FAILED: $1"
}

# skip TEXT: what was not tried, and why.
skip() {
    skipped=$((skipped + 1))
    echo "skipped: $1"
}

# has TOOL: whether a command is installed.
has() {
    command -v -- "$1" >/dev/null
}

finish() {
    [ "$skipped" = 0 ] || echo "$skipped skipped"
    echo "$passed passed, $failed failed"
    [ "$failed" = 0 ]
}
