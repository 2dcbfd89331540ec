# Sourced by the scripts beside it, which set `runs`.

# the median time of a command in microseconds
median() {
    local run begin end
    for ((run = 0; run < runs; run++)); do
        begin=$(date +%s%N)
        "$@" > /dev/null
        end=$(date +%s%N)
        echo $(((end - begin) / 1000))
    done | sort -n | sed -n "$(((runs + 1) / 2))p"
}
