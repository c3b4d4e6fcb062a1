# The state of the cluster, and what its own catalog and log say.
#
# Needs `refuse`, `here`, `data` and `work`; all but `ask_state` and what `fill_case` refuses are asked in the data
# folder as working folder. `read_control` leaves `control`. `is_in_catalog` leaves `catalog_columns`, and keeps what it
# has read of catalogs in `nodes`.
# shellcheck shell=bash disable=SC2034,SC2154

# A database without a table has no case. The cluster is asked for its state all the same.
ask_state() {
    local name
    for name in NextXID oldestXID NextMultiXactId oldestMultiXid NextMultiOffset; do
        printf 'number = @%s@\n' "$name"
    done >"$work/state.toml"
    "$here/fill_case" "$data" "$work/state.toml" >/dev/null 2>"$work/said" \
        || refuse "nothing was checked: $(sed 's/^fill_case: //' "$work/said")"
}

# The first bytes of the control file, which hold all that it has, into `control`: a server writes it when it starts and
# when it stops.
read_control() {
    local bytes=() IFS=:
    mapfile -d '' -n 400 -t bytes <global/pg_control
    control="${bytes[*]}"
}

# The rows of a catalog of tables, in `nodes`, by the catalog's file and the number that a relation's file is called by:
# how many columns the relation has, the transaction that made the row, and the one that deleted it, 0 where the row's
# head tells by itself that the first is committed or that there is no second. A row of pg_class has the number of the
# file 88 bytes from its beginning, and the count of columns 116 bytes from there.
ask_catalog() {
    local catalog=$1 node row
    if [ -n "${is_asked[x$catalog]:-}" ]; then
        return 0
    fi
    is_asked[x$catalog]=1
    [ -n "$catalog" ] && [ -f "$catalog" ] && [ -r "$catalog" ] || return 0
    while IFS=' ' read -r node row; do
        nodes["$catalog $node"]+=$row$'\n'
    done < <(od -An -v -tu1 -w8192 -- "$catalog" | awk '
        function two(at) { return $(at + 1) + 256 * $(at + 2) }
        function four(at) { return two(at) + 65536 * two(at + 2) }
        NF == 8192 {
            end = two(12)
            for (at = 24; at + 4 <= end && at < 8192; at += 4) {
                pointer = four(at)
                place = pointer % 32768
                size = int(pointer / 131072)
                if (int(pointer / 32768) % 4 != 1 || place + size > 8192 || size < 24)
                    continue
                row = place + $(place + 23)
                hints = two(place + 20)
                # Bits of the hints: 0100 the maker is committed, 0800 there is no deleter, 1000 the deleter is a
                # group, 0080 it is a lock. A row of a maker that aborted, or with a group, is passed over.
                maker = int(hints / 256) % 2 ? 0 : four(place)
                deleter = int(hints / 2048) % 2 || int(hints / 128) % 2 ? 0 : four(place + 4)
                if (row + 118 <= place + size && int(hints / 256) % 4 != 2 && (!deleter || !(int(hints / 4096) % 2)))
                    printf "%.0f %d %.0f %.0f\n", four(row + 88), two(row + 116), maker, deleter
            }
        }')
}
declare -gA nodes=()
declare -gA is_asked=()

# Whether the log has a transaction as committed. A file of it has 1048576 transactions, of two bits each.
is_committed() {
    local file byte
    [ "$1" -ge 3 ] || return 0
    printf -v file 'pg_xact/%04X' $(($1 / 1048576))
    byte=$(od -An -tu1 -j$(($1 % 1048576 / 4)) -N1 -- "$file" 2>/dev/null)
    [ -n "$byte" ] && [ $(((byte >> ($1 % 4 * 2)) & 3)) -eq 1 ]
}

# Whether the cluster's own catalog certainly has a file, and how many columns of its relation, in `catalog_columns`:
# the file, and the catalog.
is_in_catalog() {
    local count maker deleter
    ask_catalog "$2"
    while IFS=' ' read -r count maker deleter; do
        if [ -z "$count" ] || ! is_committed "$maker"; then
            continue
        fi
        if [ "$deleter" -eq 0 ] || ! is_committed "$deleter"; then
            catalog_columns=$count
            return 0
        fi
    done <<<"${nodes[$2 ${1##*/}]:-}"
    return 1
}
