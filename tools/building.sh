# What `list` and `programs` share. `me` names the script, `log` the file that gets what rt says, and `first` is what is said where there is no program yet.
# shellcheck shell=bash disable=SC2154

fail() {
    echo "$me: $2" >&2
    exit "$1"
}

# Says once that something is being proved.
tell() {
    [ -z "$told" ] || return 0
    told=1
    if [ -x "target/bin/$name" ]; then echo "$me: proving what changed .." >&2; else echo "$me: $first" >&2; fi
}

# Has `rt` prove a program, with the crates below it, and build it, where its source changed, and puts it into target/bin. It prints a lot: what it says goes to
# the log, and a line for each crate proved to standard error. It has no command that builds alone, so the program runs, on an empty input. One that is older
# than its source is not left.
build() {
    local name=$1 line crate='' told='' status=1 began=$SECONDS
    exec 4< <(cd "crates/$name" && rt run </dev/null 2>&1 >/dev/null; echo "rt ended with $?")
    while true; do
        if IFS= read -r -t 3 -u 4 line; then
            case $line in
            "rt ended with "*) status=${line##* } && break ;;
            "crate "*": modules "*) crate=${line#crate } && crate=${crate%%:*} ;;
            "logic=proved "*) tell && echo "$me: $crate proved ($((SECONDS - began)) s)" >&2 && began=$SECONDS ;;
            esac
            echo "$line" >>"$log"
        elif [ $? -gt 128 ]; then # nothing said for a while
            tell
        else
            break
        fi
    done
    exec 4<&-
    # Another call may run the program of before, so the new one takes its place at once.
    if [ "$status" = 0 ] && mkdir -p target/bin && cp "crates/$name/out/$name" "target/bin/$name.new" && mv "target/bin/$name.new" "target/bin/$name"; then return 0; fi
    rm -f "target/bin/$name"
    return 1
}

# Ends without a program: the end of what rt said, but for its counts of modules, is shown.
lacking() {
    grep -vE '^(statements|library|logic) ' "$log" | tail -n 20 >&2
    fail 1 "$1 could not be built; the end of what rt said is above"
}
