# Ending a process group: sourced by the commands and by the tests' counting.
# what is told to end has so many seconds before it is killed
grace=10

# end_group PID: ends what is left of a process group
end_group() {
    local tries
    kill -TERM -- "-$1" 2>/dev/null || return 0
    for ((tries = 10 * grace; tries > 0; tries--)); do
        sleep 0.1
        kill -0 -- "-$1" 2>/dev/null || return 0
    done
    kill -KILL -- "-$1" 2>/dev/null
}
