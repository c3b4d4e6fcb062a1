# The summary: what was judged of what there is, the verdict, and the status.
#
# Needs the counts and lists of the other parts, `tell_table` of reports.bash and `put`. `count_judged` leaves what was
# judged and of how much, and `several` where the tables are of several databases; `find_verdict` leaves `verdict` and
# `status`; `tell_all` writes the text.
# shellcheck shell=bash disable=SC2034,SC2154

# The indexes and the missing values that the cases leave out, and those tables, blocks and indexes that were judged.
judged_tables=0
judged_blocks=0
judged_indexes=0
count_judged() {
    local number count line database
    for ((number = 0; number < total; number++)); do
        count=${indexes[number]//[!$'\n']/}
        count=${#count}
        left_btrees=$((left_btrees + count))
        if [ "${verdicts[number]}" != refused ] && [[ ${reports[number]} != 'finding file '* ]]; then
            judged_tables=$((judged_tables + 1))
            judged_blocks=$((judged_blocks + blocks[number]))
            judged_indexes=$((judged_indexes + count))
        fi
        while IFS= read -r line; do
            case $line in
                'The index '*': it is no B-tree'*) left_indexes=$((left_indexes + 1)) ;;
                'The index '*)
                    left_indexes=$((left_indexes + 1))
                    left_btrees=$((left_btrees + 1))
                    ;;
                'The missing value '*) left_values=$((left_values + 1)) ;;
            esac
        done <<<"${left_out[number]}"
    done
    all_blocks=$((total_blocks + left_blocks))
    all_tables=$((total + left_tables))
    several=
    for database in ${databases[@]+"${databases[@]}"}; do
        [ "$database" = "${databases[0]}" ] || several=1
    done
}

# A table that is refused makes no verdict where another one has findings or can't be judged.
find_verdict() {
    status=3
    verdict=refused
    if [ "$findings" -gt 0 ] || [ ${#file_findings[@]} -gt 0 ]; then
        status=1
        verdict=findings
    elif [ $((unjudged - known)) -gt 0 ]; then
        status=2
        verdict=unjudged
    elif [ "$refused" -eq 0 ]; then
        status=0
        verdict=clean
    fi
}

# The tables that aren't clean, what is found of files, and the summary.
tell_all() {
    local number line
    for ((number = 0; number < total; number++)); do
        [ "${verdicts[number]}" = clean ] || tell_table "$number"
    done
    for line in ${file_findings[@]+"${file_findings[@]}"}; do
        put "$text_out" 'finding %s\n' "$line"
    done
    put "$text_out" 'tables %s blocks %s seconds %s\n' "$total" "$total_blocks" "$seconds"
    put "$text_out" 'clean %s findings %s unjudged %s refused %s\n' "$clean" "$findings" "$unjudged" "$refused"
    put "$text_out" 'judged: tables %s of %s, blocks %s of %s, B-tree indexes %s of %s\n' \
        "$judged_tables" "$all_tables" "$judged_blocks" "$all_blocks" "$judged_indexes" "$left_btrees"
    put "$text_out" 'left out: tables %s indexes %s missing values %s; without files: tables %s\n' \
        "$left_tables" "$left_indexes" "$left_values" "$without_files"
    put "$text_out" 'files %s findings %s\n' "$looked_at" ${#file_findings[@]}
    [ "$known" -eq 0 ] || put "$text_out" 'allowed to be unjudged: tables %s\n' "$known"
    # A verdict over a part says so.
    line=
    [ "$judged_blocks" -eq "$all_blocks" ] || line=" of $judged_blocks blocks of $all_blocks"
    [ "$status" -eq 0 ] || line=
    put "$text_out" 'verdict %s%s\n' "$verdict" "$line"
}
