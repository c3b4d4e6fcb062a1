# One table: it is judged by the checker, and what comes of it is taken in.
#
# Needs `program`, `work`, the pipe `answers`, the lists of cases.bash and files.bash, `is_in_catalog`, `take_time`,
# `allow` and `write_json`. `judge` runs in a process of its own and leaves a report in the folder `work`; `finish`
# leaves the table's `verdicts` and `reports`, and counts it in `clean`, `findings`, `unjudged` or `refused`.
# shellcheck shell=bash disable=SC2034,SC2154

# How many tables, and their blocks, are done, and what came of them.
done_tables=0
done_blocks=0
clean=0
findings=0
unjudged=0
refused=0

# Judges some tables one after another, in a process of its own, and tells the end of each on the pipe `answers`.
judge() {
    local number from child='' status
    trap '[ -z "$child" ] || { kill -TERM "$child"; wait "$child"; }; exit 1' TERM
    for number in "$@"; do
        take_time
        from=$now
        "$program" all "${filled_cases[number]}" >"$work/$number.report" 2>"$work/$number.said" </dev/null &
        child=$!
        wait "$child"
        status=$?
        child=
        take_time
        printf '%s %s %s\n' "$number" "$status" $((now - from)) >&"$answers"
    done
}

# The first file of a table that can't be read, in `file`, and why not, in `why`.
find_unreadable() {
    local number=$1 path segment
    file=
    while IFS= read -r path; do
        [ -n "$path" ] || continue
        for segment in "$path" "$path".[0-9]* "$path"_vm "$path"_vm.[0-9]*; do
            try_to_read "$segment" || return 0
        done
    done <<<"${files[number]}"
    for path in pg_xact/* pg_multixact/offsets/* pg_multixact/members/*; do
        try_to_read "$path" || return 0
    done
}

try_to_read() {
    [ -e "$1" ] || return 0
    file=$1
    if [ ! -f "$1" ]; then
        why='it is no regular file'
    elif [ ! -r "$1" ]; then
        why="the user $(who) may not read it, and it belongs to $(owner_of "$1")"
    elif ! cat -- "$1" >/dev/null 2>"$work/said"; then
        why=$(sed -n 's/.*: //; 1p' "$work/said")
    else
        file=
    fi
    [ -z "$file" ]
}

# Why the checker gave no verdict, by its status.
why_refused() {
    local number=$1 status=$2 file
    case $status in
        3) why="the checker $program is older than check_cases: it doesn't know the command 'all'" ;;
        4) why="the case breaks a rule of case files (docs/CASE-FILE.md)" ;;
        5) why="a file of the case isn't there" ;;
        6) why="the table or an index has grown past what the checker reads" ;;
        7)
            find_unreadable "$number"
            if [ -n "$file" ]; then
                why="a file can't be read: $file: $why"
            else
                why="a file couldn't be read, and now all files of the case can: does the disk fail at times?"
            fi
            ;;
        8) why="the checker's report can't be written whole; is the folder for temporary files full?" ;;
        9) why="there isn't enough memory" ;;
        12[67]) why="the checker $program can't be run by the user $(who)" ;;
        lost) why="the process that judged it was ended from outside" ;;
        *)
            if [ "$status" -gt 128 ]; then
                why="the checker was ended by the signal $((status - 128))"
            else
                why="the checker $program ends with status $status, and what it says is no report"
            fi
            ;;
    esac
    [ ! -s "$work/$number.report" ] || why+=$'\n'$(head -n 3 "$work/$number.report")
    [ ! -s "$work/$number.said" ] || why+=$'\n'$(head -n 3 "$work/$number.said")
}

# Takes in what the checker says of a table: its number, the status, and the microseconds that it took.
finish() {
    local number=$1 status=$2 lines=() last='' expected=refused why IFS=$'\n'
    done_tables=$((done_tables + 1))
    done_blocks=$((done_blocks + blocks[number]))
    if [ -z "${verdicts[number]}" ]; then
        case $status in
            0) expected=clean ;;
            1) expected=findings ;;
            2) expected=unjudged ;;
        esac
        mapfile -t lines <"$work/$number.report"
        [ ${#lines[@]} -eq 0 ] || last=${lines[-1]}
        verdicts[number]=refused
        if [ "$last" = "verdict $expected" ]; then
            verdicts[number]=$expected
            unset 'lines[-1]'
            reports[number]="${lines[*]}"
            refuse_old_case "$number"
        else
            why_refused "$number" "$status"
            reports[number]=$why
        fi
    fi
    [ "${verdicts[number]}" != unjudged ] || allow "$number"
    case ${verdicts[number]} in
        clean) clean=$((clean + 1)) ;;
        findings) findings=$((findings + 1)) ;;
        unjudged) unjudged=$((unjudged + 1)) ;;
        refused) refused=$((refused + 1)) ;;
    esac
    [ -z "$json" ] || write_json "$number" "$3"
}

# A case with fewer columns than the table has now is older than its table, and what the checker finds by it counts for
# nothing. It is asked where a row has more columns than the case (H4), or values that don't fit them (H17).
refuse_old_case() {
    local number=$1 heap catalog_columns
    [[ ${reports[number]} =~ (^|$'\n')finding\ H(4|17)\  ]] || return 0
    heap=${files[number]%%$'\n'*}
    is_in_catalog "$heap" "${catalogs[number]}" || return 0
    [ "$catalog_columns" -gt "${columns[number]}" ] || return 0
    verdicts[number]=refused
    reports[number]="the case is older than the table: the cluster's catalog has $catalog_columns columns of it, and \
the case ${columns[number]}, so a column was added since; make the cases anew"
}
