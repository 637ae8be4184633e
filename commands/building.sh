# Building what the commands run, with a line that says how far it is. Sourced, with $top, the repository's folder, and $name, that of the command.
. "$top/commands/process_group.sh"
logs=$top/target/commands
peer=$top/peer/target/release/peer
group='' work='' shown=''

# say WORDS..: a line on standard error
say() {
    wipe
    printf '%s: %s\n' "$name" "$*" >&2
}

# trouble WORDS..: why nothing can be done, and status 2
trouble() {
    say "$@"
    exit 2
}

# progress STEP SECONDS: on a terminal one line that is kept up to date, elsewhere a line a step
progress() {
    if [ -t 2 ]; then
        printf '\r%s: %s, %s s\033[K' "$name" "$1" "$2" >&2
    elif [ "$1" != "$shown" ]; then
        printf '%s: %s\n' "$name" "$1" >&2
    fi
    shown=$1
}

# wipe: takes the terminal's progress line away
wipe() {
    [ -z "$shown" ] || [ ! -t 2 ] || printf '\r\033[K' >&2
    shown=''
}

# tidy: ends what is being built, and removes what is temporary
tidy() {
    [ -z "$group" ] || end_group "$group"
    [ -z "$work" ] || rm -rf "$work"
}

# ended_by SIGNAL: leaves nothing running and nothing behind, then ends as the signal would have it
ended_by() {
    wipe
    tidy
    trap - "$1" EXIT
    kill -s "$1" $$
}

# begin: a folder for what is temporary, and nothing left of it or of a build however the command ends
begin() {
    local signal
    trap tidy EXIT
    for signal in INT TERM HUP; do trap "ended_by $signal" "$signal"; done
    work=$(mktemp -d 2>/dev/null) || trouble "no temporary folder can be made in ${TMPDIR:-/tmp}"
}

# below CRATE: the crate and those of the repository that it reaches
below() {
    awk -v wanted="$1" '
        { sub(/#.*/, "") }
        # a name, with a word behind it where it is a static library
        /:/ { split($0, part, ":"); split(part[1], word, " "); needs[word[1]] = part[2] }
        function visit(crate,    each, count, k) {
            if (!(crate in needs) || crate in seen) return
            seen[crate] = 1
            print crate
            count = split(needs[crate], each, " ")
            for (k = 1; k <= count; k++) visit(each[k])
        }
        END { visit(wanted) }' "$top/crates.txt"
}

# outdated FILE SOURCE..: the file isn't there, or something of these is newer
outdated() { [ ! -e "$1" ] || [ -n "$(find "${@:2}" -newer "$1" -print -quit)" ]; }

# alone TOOL: waits until no other command builds with that tool, where flock is there to tell
alone() {
    local began=$SECONDS
    mkdir -p "$logs" 2>/dev/null || trouble "$top/target can't be written"
    command -v flock >/dev/null || return 0
    exec {lock}>>"$logs/$1.lock"
    until flock -w 0.5 "$lock"; do progress "waiting for another command that builds" $((SECONDS - began)); done
    wipe
}

# produce STEPS FILE TOOL WORD..: makes the file by these words, which need the tool, and says how many of so many crates are proved; what is printed is kept in a log
produce() {
    local steps=$1 file=$2 tool=$3 path=${2#"$top"/} log=$logs/${2##*/}.log began=$SECONDS why status
    shift 3
    command -v "$tool" >/dev/null || trouble "$path can't be built: $tool is not on the PATH (README.md, \"What it needs\")"
    [ -e "$file" ] && why="is older than its sources" || why="isn't built yet"
    say "$path $why: building, $([ "$steps" -eq 0 ] && echo seconds || echo "some minutes from nothing")"
    : >"$log" || trouble "$log can't be written"
    # what changes while the file is made is newer than it
    : >"$work/began"
    # a process group of its own, so that all of it can be ended
    set -m
    (cd "$top" && exec "$@") </dev/null >"$log" 2>&1 &
    group=$!
    set +m
    while kill -0 "$group" 2>/dev/null; do
        progress "$(steps_done "$steps" "$log")" $((SECONDS - began))
        sleep 0.5
    done
    wait "$group" 2>/dev/null
    status=$?
    group=''
    [ "$status" -eq 0 ] && [ -e "$file" ] || trouble "$path can't be built; $log says why"
    touch -r "$work/began" "$file"
    say "built in $((SECONDS - began)) s$([ "$tool" != rt ] || echo ": $(sum_of "$file")")"
}

# steps_done STEPS LOG: how far it is
steps_done() {
    if [ "$1" -gt 0 ]; then
        echo "$(grep -c '^logic=proved ' "$2") of $1 crates proved"
    else
        echo building
    fi
}

# sum_of FILE: its SHA-256 and its path from the repository's top, as sha256sum prints them
sum_of() { (cd "$top" && sha256sum "${1#"$top"/}"); }

# build FILE SOURCE.. -- STEPS TOOL WORD..: makes the file by these words, which need the tool, where it isn't there, or where one of the sources is newer
build() {
    local file=$1 sources=()
    shift
    while [ "$1" != -- ]; do
        sources+=("$1")
        shift
    done
    outdated "$file" "${sources[@]}" || return 0
    alone "$3"
    # another command may have made it meanwhile
    ! outdated "$file" "${sources[@]}" || produce "$2" "$file" "${@:3}"
    [ -z "${lock-}" ] || exec {lock}>&-
}

# build_crate FILE CRATE: a crate's program or static library, by rt
build_crate() {
    local crates crate part sources=()
    mapfile -t crates < <(below "$2")
    # beside these a crate's folder has what rt makes
    for crate in "${crates[@]}"; do
        for part in src specs proofs; do [ ! -d "$top/crates/$crate/$part" ] || sources+=("$top/crates/$crate/$part"); done
    done
    build "$1" "$top/crates.txt" "${sources[@]}" -- "${#crates[@]}" rt "$top/commands/by_rt" "$2" "$1"
}

# build_peer: the second implementation, by cargo
build_peer() {
    build "$peer" "$top/peer/Cargo.toml" "$top/peer/Cargo.lock" "$top/peer/build.rs" "$top/peer/src" -- \
        0 cargo cargo build --release --quiet --offline --locked --manifest-path peer/Cargo.toml
}
