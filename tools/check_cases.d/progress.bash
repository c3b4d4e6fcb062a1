# The time, and what is shown of what is done.
#
# Needs `progress` of the words, `total` and `total_blocks`, and of the run `done_tables`, `done_blocks`, `started`,
# `order`, `next` and `running`. `take_time` leaves `now`, `as_seconds` leaves `seconds`.
# shellcheck shell=bash disable=SC2034,SC2154

# Microseconds, in `now`.
take_time() {
    if [ -n "${EPOCHREALTIME:-}" ]; then
        now=${EPOCHREALTIME/[.,]/}
    else
        now=$(date +%s%6N)
    fi
}

# A number of microseconds as seconds with so many digits behind the point, in `seconds`.
as_seconds() {
    local rounded=$((($1 + 10 ** (6 - $2) / 2) / 10 ** (6 - $2)))
    printf -v seconds '%d.%0*d' $((rounded / 10 ** $2)) "$2" $((rounded % 10 ** $2))
}

percent_of() {
    percent=100
    [ "$2" -eq 0 ] || percent=$((100 * $1 / $2))
}

# What is left of the time, in `left`, by the blocks that are done. A table counts as 500 blocks more, which is about
# what the start of the checker takes.
estimate() {
    local done_work=$((done_blocks + 500 * done_tables)) all_work=$((total_blocks + 500 * total)) rest
    left='-:--'
    [ "$done_work" -gt 0 ] || return 0
    take_time
    rest=$(((now - started) * (all_work - done_work) / done_work / 1000000))
    if [ "$rest" -lt 3600 ]; then
        printf -v left '%d:%02d' $((rest / 60)) $((rest % 60))
    else
        printf -v left '%d:%02d:%02d' $((rest / 3600)) $((rest / 60 % 60)) $((rest % 60))
    fi
}

# The table that is judged for the longest time, in `name`.
find_slowest() {
    local place
    name=
    for ((place = 0; place < next; place++)); do
        if [ -n "${running[${order[place]}]:-}" ]; then
            name=${tables[${order[place]}]}
            return
        fi
    done
}

# One line on standard error, at most one a second: what is done of all, the time that is left, and the table that is
# judged for the longest time. On a terminal each line takes the place of the one before, within its width.
on_terminal=
shown_at=-1
width=100

begin_progress() {
    [ -t 2 ] || return 0
    on_terminal=1
    [ "$progress" = never ] || progress=always
    read -r _ width < <(stty size <&2 2>/dev/null)
    [[ ${width:-0} =~ ^[1-9][0-9]{1,3}$ ]] || width=80
}

show_progress() {
    local name='' percent left end=$'\n' line
    [ "$progress" = always ] || return 0
    if [ "$done_tables" -eq "$total" ]; then
        [ "${1:-}" = last ] || return 0
    elif [ "$SECONDS" -eq "$shown_at" ]; then
        return 0
    fi
    shown_at=$SECONDS
    percent_of "$done_tables" "$total"
    printf -v line '%*d/%d tables (%d%%), ' ${#total} "$done_tables" "$total" "$percent"
    percent_of "$done_blocks" "$total_blocks"
    printf -v line '%s%*d/%d blocks (%d%%)' "$line" ${#total_blocks} "$done_blocks" "$total_blocks" "$percent"
    if [ "$done_tables" -lt "$total" ]; then
        estimate
        find_slowest
        if [ ${#name} -gt 35 ]; then
            name=${name:0:32}
            # No character is cut in two.
            while [[ $name == *[$'\x80'-$'\xff'] ]]; do
                name=${name%?}
            done
            name+=...
        fi
        line+=", $left left ($name)"
    fi
    if [ -n "$on_terminal" ]; then
        [ "$done_tables" -eq "$total" ] || end=$'\r'
        line=${line:0:width - 1}
        printf '%-*s%s' $((width - 1)) "$line" "$end" >&2
    else
        printf '%s\n' "$line" >&2
    fi
}
