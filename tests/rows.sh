# Rows of scripts with their answers, for the scripts of this folder that read it: each sets `recall` to the program first.
work=$(mktemp -d) || exit 2
trap 'rm -rf "$work"' EXIT
failed=0
rows=0

# row LINE ANSWER..: a line of the script, and the lines that it prints
row() {
    printf '%s\n' "$1" >>"$work/script"
    shift
    [ $# -eq 0 ] || printf '%s\n' "$@" >>"$work/wanted"
    rows=$((rows + 1))
}

# begins LINE..: a new script, of these lines, which print nothing
begins() {
    : >"$work/wanted"
    printf '%s\n' "$@" >"$work/script"
}

# ends NAME: the script prints what is wanted, with status 1 where a line of it is refused
ends() {
    local status=0
    ! grep -q '^refused' "$work/wanted" || status=1
    "$recall" sim <"$work/script" >"$work/printed"
    [ $? -eq $status ] || failed=1
    if ! diff -u --label 'as it should be' --label "$1" "$work/wanted" "$work/printed"; then
        failed=1
    fi
}

# repeated COUNT WORD: the word so many times, with commas between
repeated() {
    local all
    all=$(printf "%0.s$2," $(seq "$1"))
    printf '%s' "${all%,}"
}

# seen MEMBERS ANSWER: an ObjectEvent at A with these members
seen() {
    row "capture A {\"type\":\"ObjectEvent\",$1}" "$2"
}

# made MEMBERS ANSWER: a TransformationEvent at A, with these members behind the time
made() {
    row "capture A {\"type\":\"TransformationEvent\",$at,$1}" "$2"
}

# The time of an event.
at='"eventTime":"2024-05-01T08:00:00Z","eventTimeZoneOffset":"+00:00"'
