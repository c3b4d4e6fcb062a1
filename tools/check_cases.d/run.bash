# The run: tables are judged in processes beside one another, the largest first.
#
# Needs `jobs`, `total`, `blocks` and `verdicts`, `judge` and `finish` of table.bash, `take_time` and `show_progress`.
# `judge_all` leaves every table finished, `started` and `seconds`. A process that judged tables and is gone without a
# word loses the one that it was at, and the others are judged by another process.
# shellcheck shell=bash disable=SC2034,SC2154

# The process of each table that is being judged, by the table's number.
declare -gA running=()
# How many tables each process has still to judge, by the process, and the tables whose process was gone a second ago.
declare -gA left_of=()
declare -gA lost=()
# The tables in the order in which they are begun, and the place of the next one in it.
order=()
next=0

# Forgets that a table is being judged.
leave() {
    local process=${running[$1]}
    unset "running[$1]"
    left_of[$process]=$((left_of[$process] - 1))
    if [ "${left_of[$process]}" -eq 0 ]; then
        unset "left_of[$process]"
    fi
}

# Takes in the tables whose processes are gone without a word: those that were gone a second ago too. Of the tables of a
# process the first that isn't done is lost, and the others, which it didn't begin, are judged by another one.
find_lost() {
    local number gone=()
    for number in "${order[@]:0:next}"; do
        if [ -n "${running[$number]:-}" ] && ! kill -0 "${running[$number]}" 2>/dev/null; then
            if [ -n "${lost[$number]:-}" ]; then
                gone+=("$number")
            else
                lost[$number]=1
            fi
        fi
    done
    local -A had=()
    local process
    for number in ${gone[@]+"${gone[@]}"}; do
        process=${running[$number]}
        leave "$number"
        if [ -n "${had[$process]:-}" ]; then
            unset "lost[$number]"
            order+=("$number")
        else
            had[$process]=1
            finish "$number" lost 0
        fi
    done
}

# Takes the next tables that one process is to judge, into `group`: one, or some small ones, but not more than one
# process's part of those that are left.
take_group() {
    local number most sum=0
    group=()
    most=$(((${#order[@]} - next + jobs - 1) / jobs))
    while [ "$next" -lt ${#order[@]} ] && [ ${#group[@]} -lt "$most" ] && [ ${#group[@]} -lt 16 ]; do
        number=${order[next]}
        sum=$((sum + blocks[number]))
        [ ${#group[@]} -eq 0 ] || [ "$sum" -le 256 ] || break
        next=$((next + 1))
        if [ -n "${verdicts[number]}" ]; then
            finish "$number" '' 0
        else
            group+=("$number")
        fi
    done
}

# Begins to judge the next tables, in a process of their own.
begin_group() {
    local number group=() process
    take_group
    [ ${#group[@]} -gt 0 ] || return 0
    judge "${group[@]}" 2>/dev/null &
    process=$!
    left_of[$process]=${#group[@]}
    for number in "${group[@]}"; do
        running[$number]=$process
    done
}

# Those with the most blocks come first, so that none of them is left to the end; where all are begun at once there is
# nothing to be won.
order_tables() {
    local number k of_blocks=() rising=()
    order=("${!blocks[@]}")
    [ "$total" -gt "$jobs" ] || return 0
    # A list's members are told by rising number, which are counts of blocks here.
    for number in "${!blocks[@]}"; do
        of_blocks[blocks[number]]="$number ${of_blocks[blocks[number]]:-}"
    done
    read -r -a rising <<<"${of_blocks[*]}"
    order=()
    for ((k = total - 1; k >= 0; k--)); do
        order+=("${rising[k]}")
    done
}

# Judges all tables, and shows what is done.
judge_all() {
    local number answer begun=''
    # A pipe to write to and to read from: that of a process that ends at once.
    exec {answers}<> <(:)
    take_time
    started=$now
    order_tables
    while [ "$done_tables" -lt "$total" ]; do
        while [ "$next" -lt ${#order[@]} ] && [ ${#left_of[@]} -lt "$jobs" ]; do
            begin_group
        done
        show_progress
        [ ${#running[@]} -gt 0 ] || continue
        if IFS= read -t 1 -r -u "$answers" answer; then
            answer=$begun$answer
            begun=
            number=${answer%% *}
            leave "$number"
            answer=${answer#* }
            finish "$number" "${answer%% *}" "${answer#* }"
        else
            # The second may end within an answer.
            begun+=$answer
            find_lost
        fi
    done
    show_progress last
    take_time
    as_seconds $((now - started)) 1
}
