# For installers.sh, attribute_bytes.sh and capability_names.sh: an example in C and the same in Rust, run on the same arguments and input. Standard
# output, standard error and status of both have to be what is expected, to the byte, and so the same. For compare_status.sh: an example that is in
# Rust alone.
set -eu
export LC_ALL=C
run=0
differ=0

# start NAME C-PROGRAM RUST-PROGRAM: what to call this test, and what it runs; in an empty directory, from here on.
start() {
    c_program=$(realpath -- "$2")
    rust_program=$(realpath -- "$3")
    from=' from both'
    begin "$1" c rust
}
# start_rust NAME RUST-PROGRAM: the same without an example in C.
start_rust() {
    rust_program=$(realpath -- "$2")
    from=
    begin "$1" rust
}
begin() {
    name=$1
    shift
    languages=$*
    work=$(mktemp -d)
    trap 'rm -rf "$work"' EXIT
    mkdir "$work/here" "$work/expected"
    for language in $languages; do
        mkdir "$work/$language"
    done
    cd "$work/here"
    nothing_expected
}
program() {
    case $1 in
    c) echo "$c_program" ;;
    rust) echo "$rust_program" ;;
    esac
}

# What the next run has on standard input, a file's content; else it is nothing.
reads() {
    input=$1
}

# What the next run has to write: a line on standard error; a line, or a file's content, on standard output.
says() {
    printf '%s\n' "$1" >>"$work/expected/stderr"
    printf '%s\n' "$1" >>"$work/expected/together"
}
prints() {
    printf '%s\n' "$1" >>"$work/expected/stdout"
    printf '%s\n' "$1" >>"$work/expected/together"
}
prints_file() {
    cat -- "$1" >>"$work/expected/stdout"
    cat -- "$1" >>"$work/expected/together"
}
nothing_expected() {
    input=/dev/null
    for stream in stdout stderr together; do
        : >"$work/expected/$stream"
    done
}

# One program's status and output, by itself and together: messages come between the lines of the output where they belong.
record() {
    into=$1
    shift
    status=0
    "$@" <"$input" >"$work/$into/stdout" 2>"$work/$into/stderr" || status=$?
    echo "$status" >"$work/$into/status"
    "$@" <"$input" >"$work/$into/together" 2>&1 || true
}

# check WHAT STATUS ARGUMENT..: the programs with these arguments. What they read and have to write has been said before, and is forgotten after.
check() {
    what=$1
    echo "$2" >"$work/expected/status"
    shift 2
    run=$((run + 1))
    same=true
    for language in $languages; do
        record "$language" "$(program "$language")" "$@"
        diff -r -- "$work/expected" "$work/$language" || same=false
    done
    if ! $same; then
        echo "$name: $what: not as expected"
        differ=$((differ + 1))
    fi
    nothing_expected
}

# The programs with standard output, file descriptor 3, that cannot be written for this reason.
unwritable() {
    reason=$1
    shift
    for language in $languages; do
        one=$(program "$language")
        run=$((run + 1))
        status=0
        "$one" "$@" >&3 2>message || status=$?
        if test "$status" -ne 2 || test "$(cat message)" != "$example: cannot write to standard output: $reason"; then
            echo "$name: $one: output that cannot be written ($reason) gives status $status and this message:"
            cat message
            differ=$((differ + 1))
        fi
    done
}

# check_unwritable EXAMPLE ARGUMENT..: output to a full device, and to a pipe whose only reader is gone. EXAMPLE is what the programs call themselves.
check_unwritable() {
    example=$1
    shift
    exec 3>/dev/full
    unwritable 'No space left on device' "$@"
    mkfifo pipe
    exec 4<>pipe
    exec 3>pipe
    exec 4<&-
    unwritable 'Broken pipe' "$@"
    exec 3>&-
}

finish() {
    echo "$name: $((run - differ)) of $run as expected$from"
    test "$differ" -eq 0
}
