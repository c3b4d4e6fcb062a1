# Read by the benches: it makes files, and takes times and peak memory of commands.
# A command is a text for `bash -c`, and must end with status 0 for its time to be taken.

export LC_ALL=C

# The best time of several runs, in microseconds.
best_time() {
    local command=$1 best='' from to told
    bash -c "$command" >/dev/null || { echo "this command fails: $command" >&2; return 1; }
    if command -v hyperfine >/dev/null; then
        told=$(mktemp)
        hyperfine --style none --warmup 1 --min-runs 10 --export-csv "$told" "$command" >/dev/null 2>&1 || return 1
        # The least time is the last field but one, counted from the end because the command may hold commas.
        tail -n 1 "$told" | awk -F, '{ printf "%d\n", $(NF - 1) * 1000000 }'
        rm -f "$told"
        return
    fi
    for _ in 1 2 3 4 5; do
        from=${EPOCHREALTIME/./}
        bash -c "exec $command" >/dev/null
        to=${EPOCHREALTIME/./}
        if [ -z "$best" ] || [ $((to - from)) -lt "$best" ]; then
            best=$((to - from))
        fi
    done
    echo "$best"
}

# The most memory that a command has at a time, in KiB.
peak_memory() {
    if [ -x /usr/bin/time ]; then
        /usr/bin/time -f %M bash -c "exec $1" 2>&1 >/dev/null | tail -n 1
    else
        python3 - "$1" <<'PYTHON'
import resource, subprocess, sys
subprocess.run(["bash", "-c", "exec " + sys.argv[1]], stdout=subprocess.DEVNULL)
print(resource.getrusage(resource.RUSAGE_CHILDREN).ru_maxrss)
PYTHON
    fi
}

# One line: a name, a time and a peak memory.
print_row() {
    awk -v name="$1" -v time="$2" -v memory="$3" \
        'BEGIN { printf "%-28s %9.1f ms %9d KiB\n", name, time / 1000, memory }'
}

# One line: a name and the ratio of two numbers.
print_ratio() {
    awk -v name="$1" -v over="$2" -v under="$3" 'BEGIN { printf "%-28s %9.2f\n", name, over / under }'
}

# The whole path of the program, which must be there.
find_program() {
    if [ ! -x "$1" ]; then
        echo "the program $1 isn't there or can't be run" >&2
        return 1
    fi
    echo "$(cd "$(dirname "$1")" && pwd)/$(basename "$1")"
}

# Logs in which every transaction of so many files of pg_xact is committed: two bits for each, 01.
make_logs() {
    local segment
    mkdir xact offsets members
    for segment in $(seq 0 $(($1 - 1))); do
        head -c 262144 /dev/zero | tr '\0' 'U' >"xact/$(printf %04X "$segment")"
    done
    head -c 8192 /dev/zero >offsets/0000
    head -c 8192 /dev/zero >members/0000
}

# A heap of 16384 blocks with these flags and transactions (see bench/make_heap), and its case.
make_table() {
    # shellcheck disable=SC2154 # the bench that reads this file sets it, to the folder that both are in
    "$here/make_heap" "$1" 16384 "$2" "$3"
    cat >"$1.toml" <<CASE
[cluster]
next_xid = 104857600
oldest_xid = 3
next_multi = 1
oldest_multi = 1
next_member = 0
xact = "xact"
offsets = "offsets"
members = "members"
[heap]
file = "$1"
[[column]]
name = "id"
type = "int8"
[[column]]
name = "item"
type = "int4"
[[column]]
name = "block"
type = "int4"
[[column]]
name = "note"
type = "text"
CASE
}

# A heap of 16 blocks of 2000 dead line pointers, which the entries of bench/make_index name.
make_dead_heap() {
    python3 >heap <<'PYTHON'
import struct, sys
head = struct.pack("<IIHHHHHHI", 0, 0, 0, 0, 24 + 4 * 2000, 8192, 8192, 0x2004, 0)
sys.stdout.buffer.write((head + struct.pack("<I", 3 << 15) * 2000).ljust(8192, b"\0") * 16)
PYTHON
}

# The file of an index with so many entries of a column (see bench/make_index), and its case.
make_index_case() {
    "$here/make_index" "$1" "$2" "$3"
    cat >"$1.toml" <<CASE
[cluster]
next_xid = 1000
oldest_xid = 3
next_multi = 1
oldest_multi = 1
next_member = 0
xact = "xact"
offsets = "offsets"
members = "members"
[heap]
file = "heap"
[[column]]
name = "key"
type = "$3"
[[index]]
name = "by_key"
file = "$1"
[[index.key]]
column = "key"
CASE
}
