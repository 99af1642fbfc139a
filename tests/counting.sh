# For the tests in shell: counts checks, and gets the commands that they need. Read with '.'; finish ends the test.
passed=0 failed=0
fail() { echo "failed: $*"; failed=$((failed + 1)); }
finish() {
    echo "$passed passed, $failed failed"
    [ "$failed" -eq 0 ] && [ "$passed" -gt 0 ]
    exit
}

# single NAME COMMAND..: one check.
single() {
    name=$1
    shift
    if "$@"; then passed=$((passed + 1)); else fail "$name"; fi
}

# add_counts NAME STATUS LINE: adds the last line 'N passed, M failed' of another test.
add_counts() {
    if ! echo "$3" | grep -Eq '^[0-9]+ passed, [0-9]+ failed$'; then
        echo "$3"
        fail "$1 ended early, with status $2"
        return
    fi
    echo "$1: $3"
    part_failed=${3#*, }
    part_failed=${part_failed%% *}
    passed=$((passed + ${3%% *}))
    failed=$((failed + part_failed))
    [ "$2" -eq 0 ] || [ "$part_failed" -gt 0 ] || fail "$1 ended with status $2"
}

# need COMMAND PACKAGE..: ends the test if the command is missing. Root installs it first, from Debian's packages, and
# one line says so before.
need() {
    command -v "$1" >/dev/null && return
    wanted=$1
    shift
    if [ "$(id -u)" = 0 ] && command -v apt-get >/dev/null; then
        echo "installing $* from Debian's packages, for the command $wanted"
        export DEBIAN_FRONTEND=noninteractive
        apt-get install -y -qq "$@" >/dev/null 2>&1 ||
            { apt-get update -qq && apt-get install -y -qq "$@"; } >/dev/null 2>&1
        command -v "$wanted" >/dev/null && return
    fi
    fail "the command $wanted is missing (Debian: apt-get install $*)"
    finish
}
