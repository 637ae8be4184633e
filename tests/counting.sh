# Counting tests under time limits: sourced by the gate, by its parts in bash, and by their own test.
passed=0 failed=0 unrun=''
# a part that runs beside others: its process group, its label, its limit, when it began, and what it printed
beside_group='' beside_label='' beside_limit='' beside_began='' beside_out=''
. "$(dirname "${BASH_SOURCE[0]}")/../commands/process_group.sh"

# add P F: counts so many
add() {
    passed=$((passed + $1))
    failed=$((failed + $2))
}

# fail WORDS..: one that failed, and why
fail() {
    echo "FAILED: $*"
    add 0 1
}

# check NAME COMMAND..: one test, passed if the command succeeds; its own status tells that too
check() {
    local name=$1
    shift
    if "$@"; then
        add 1 0
    else
        fail "$name"
        return 1
    fi
}

# not_run WORDS..: what can't be run here; said at once, and once more before the closing count
not_run() {
    echo "NOT RUN: $*"
    keep_unrun "NOT RUN: $*"
}

# keep_unrun LINE: keeps the line for the end, once
keep_unrun() {
    case $unrun in *"$1"$'\n'*) ;; *) unrun+=$1$'\n' ;; esac
}

# limited SECONDS FILE COMMAND..: runs it for so long at most, shows what it prints and keeps it in the file. It is a process group of its
# own, of which nothing is left running, also where this shell is told to end. The status is the command's; 124 or 137 where it was ended
limited() {
    local limit=$1 out=$2 group shown status
    shift 2
    timeout -k "$grace" "$limit" "$@" >"$out" 2>&1 &
    group=$!
    trap 'end_group "$group"; end_beside; rm -f "$out"; exit 143' INT TERM HUP
    tail -n +1 -s 0.1 -f --pid="$group" "$out" &
    shown=$!
    # without the shell's own word on a process that was killed
    wait "$group" 2>/dev/null
    status=$?
    end_group "$group"
    wait "$shown"
    trap - INT TERM HUP
    return "$status"
}

# counted SECONDS LABEL COMMAND..: runs a part under its time limit, and adds up the 'N passed, M failed' of its last line
counted() {
    local limit=$1 label=$2 began=$SECONDS out
    shift 2
    out=$(mktemp) || { fail "$label: no temporary file"; return; }
    echo "== $label"
    limited "$limit" "$out" "$@"
    tell_part $? "$label" "$limit" "$began" "$out"
}

# beside SECONDS LABEL COMMAND..: begins a part that runs beside those that follow, until `joined`
beside() {
    beside_limit=$1 beside_label=$2 beside_began=$SECONDS
    shift 2
    beside_out=$(mktemp) || { fail "$beside_label: no temporary file"; return; }
    echo "== $beside_label begins, beside what follows"
    timeout -k "$grace" "$beside_limit" "$@" >"$beside_out" 2>&1 &
    beside_group=$!
}

# joined: waits for the part that runs beside others, shows what it printed and counts it
joined() {
    local status
    [ -n "$beside_group" ] || return
    trap 'end_beside; exit 143' INT TERM HUP
    wait "$beside_group" 2>/dev/null
    status=$?
    end_group "$beside_group"
    trap - INT TERM HUP
    beside_group=''
    echo "== $beside_label"
    cat "$beside_out"
    tell_part "$status" "$beside_label" "$beside_limit" "$beside_began" "$beside_out"
}

# end_beside: ends the part that runs beside others, where there is one
end_beside() {
    [ -n "$beside_group" ] || return 0
    end_group "$beside_group"
    rm -f "$beside_out"
}

# tell_part STATUS LABEL LIMIT BEGAN FILE: counts a part that has ended, by what it printed, and says how long it took
tell_part() {
    local status=$1 label=$2 limit=$3 began=$4 out=$5 before=($passed $failed) line
    if { [ "$status" -eq 124 ] || [ "$status" -eq 137 ]; } && [ $((SECONDS - began)) -ge "$limit" ]; then
        fail "$label: ended at its time limit of $limit s"
    else
        add_counts "$label" "$status" "$out"
    fi
    while IFS= read -r line; do keep_unrun "$line"; done < <(grep '^NOT RUN: ' "$out")
    rm -f "$out"
    echo "== $label: $((passed - before[0])) passed, $((failed - before[1])) failed, $((SECONDS - began)) s"
}

# add_counts LABEL STATUS FILE: the closing count of what a part printed
add_counts() {
    local counts
    counts=$(tail -n 1 "$3" | sed -nE 's/^([0-9]+) passed, ([0-9]+) failed$/\1 \2/p')
    case $counts in
    '') fail "$1: no closing count, exit status $2" ;;
    '0 0') fail "$1: nothing was counted, exit status $2" ;;
    *)
        add "${counts% *}" "${counts#* }"
        # a failure that was not counted is still one
        [ "$2" -eq 0 ] || [ "${counts#* }" -gt 0 ] || fail "$1: exit status $2, and no failure counted"
        ;;
    esac
}

# add_cargo STATUS FILE WORD..: the tests that 'cargo test -- WORD..' ran, by what it printed; each word must be in the name of one
add_cargo() {
    local status=$1 out=$2 lost word ran='\.\.\. (ok|FAILED)$'
    shift 2
    lost=$(grep -cE '^test .* \.\.\. FAILED$' "$out")
    add "$(grep -cE '^test .* \.\.\. ok$' "$out")" "$lost"
    # a build that fails has no tests to count
    [ "$status" -eq 0 ] || [ "$lost" -gt 0 ] || fail "cargo test: exit status $status, and no failure counted"
    grep -qE "^test .* $ran" "$out" || fail "cargo test: no test ran"
    for word; do
        grep -qE "^test .*$word.* $ran" "$out" || fail "cargo test: no test has '$word' in its name"
    done
}

# closing: what was not run, then the count of all. False if anything failed, or nothing was counted
closing() {
    printf '%s' "$unrun"
    echo "$passed passed, $failed failed"
    [ "$failed" -eq 0 ] && [ "$passed" -gt 0 ]
}
