# The lines of --json.
#
# Needs `put` and `json_out`, the lists of cases.bash and files.bash, `as_seconds`, and of reports.bash `take_names`,
# `take_line` and `take_unasked`. `write_json` and `write_last_json` write a line each; the others leave their text in
# the variable that is named above them.
# shellcheck shell=bash disable=SC2034,SC2154

# A text in UTF-8, in `valid`: each byte that is no part of a character of it is written as \xHH, the backslash as the
# second word has it.
make_valid() {
    local rest=$1 slash=${2:-\\} length byte
    valid=$1
    [[ $1 == *[$'\x80'-$'\xff']* ]] || return 0
    valid=
    while [ -n "$rest" ]; do
        case $rest in
            [$'\x01'-$'\x7f']*) length=1 ;;
            [$'\xc2'-$'\xdf'][$'\x80'-$'\xbf']*) length=2 ;;
            $'\xe0'[$'\xa0'-$'\xbf'][$'\x80'-$'\xbf']*) length=3 ;;
            $'\xed'[$'\x80'-$'\x9f'][$'\x80'-$'\xbf']*) length=3 ;;
            [$'\xe1'-$'\xec\xee\xef'][$'\x80'-$'\xbf'][$'\x80'-$'\xbf']*) length=3 ;;
            $'\xf0'[$'\x90'-$'\xbf'][$'\x80'-$'\xbf'][$'\x80'-$'\xbf']*) length=4 ;;
            [$'\xf1'-$'\xf3'][$'\x80'-$'\xbf'][$'\x80'-$'\xbf'][$'\x80'-$'\xbf']*) length=4 ;;
            $'\xf4'[$'\x80'-$'\x8f'][$'\x80'-$'\xbf'][$'\x80'-$'\xbf']*) length=4 ;;
            *) length=0 ;;
        esac
        if [ "$length" -gt 0 ]; then
            valid+=${rest:0:length}
            rest=${rest:length}
        else
            printf -v byte '%02x' "'${rest:0:1}"
            valid+=$slash"x${byte: -2}"
            rest=${rest:1}
        fi
    done
}

# A text as JSON has it, in `quoted`.
quote() {
    local valid
    make_valid "$1"
    quoted=${valid//\\/\\\\}
    quoted=${quoted//\"/\\\"}
    quoted=${quoted//$'\t'/\\t}
    quoted="\"${quoted//[$'\x01'-$'\x1f']/ }\""
}

# Lines as a list of JSON, in `listed`.
list() {
    local line
    listed=
    while IFS= read -r line; do
        [ -n "$line" ] || continue
        quote "$line"
        listed+=${listed:+, }$quoted
    done <<<"$1"
    listed="[$listed]"
}

# The time of day, as JSON's readers like it.
stamp_line() {
    TZ=UTC0 printf -v stamp '%(%Y-%m-%dT%H:%M:%SZ)T' -1
}

# The findings and the doubts of a report with their places as fields, in `as_fields`, and how many each rule has, in
# `by_rule`.
take_fields() {
    local number=$1 line kind rule relation index place names=() at fields valid quoted
    local -A counts=()
    as_fields=
    by_rule=
    take_names "$number"
    while IFS= read -r line; do
        if [[ $line == 'finding file '* ]]; then
            quote "${line#finding }"
            as_fields+=${as_fields:+, }"{\"kind\": \"finding\", \"rule\": \"file\", \"text\": $quoted}"
            counts[file]=$((${counts[file]:-0} + 1))
            continue
        fi
        take_line "$line" || continue
        counts[$rule]=$((${counts[$rule]:-0} + 1))
        fields="{\"kind\": \"$kind\", \"rule\": \"$rule\", \"relation\": \"$relation\""
        if [ -n "$index" ]; then
            make_valid "${names[index - 1]}" "\\\\"
            fields+=", \"index\": $valid"
        fi
        for ((at = 0; at < ${#place[@]}; at += 2)); do
            case ${place[at]} in
                tuple | tid)
                    fields+=", \"tid\": \"(${place[at + 1]},${place[at + 2]})\""
                    at=$((at + 1))
                    ;;
                *) fields+=", \"${place[at]}\": ${place[at + 1]}" ;;
            esac
        done
        as_fields+="${as_fields:+, }$fields}"
    done <<<"${reports[number]}"
    for rule in "${!counts[@]}"; do
        by_rule+=${by_rule:+, }"\"$rule\": ${counts[$rule]}"
    done
    as_fields="[$as_fields]"
    by_rule="{$by_rule}"
}

# The line of a table in the file of --json.
write_json() {
    local number=$1 seconds stamp quoted listed line numbers=null as_fields by_rule valid
    local values apart apart_names all_indexes
    stamp_line
    as_seconds "$2" 6
    [[ ${reports[number]} =~ (^|$'\n')'findings '([0-9]+)' unjudged '([0-9]+)$ ]] \
        && numbers="{\"findings\": ${BASH_REMATCH[2]}, \"unjudged\": ${BASH_REMATCH[3]}}"
    quote "${tables[number]}"
    line="{\"at\": \"$stamp\", \"table\": $quoted"
    quote "${case_names[number]}.toml"
    line+=", \"case\": $quoted"
    quote "${databases[number]}"
    line+=", \"database\": $quoted, \"verdict\": \"${verdicts[number]}\", \"counts\": $numbers"
    line+=", \"blocks\": ${blocks[number]}, \"seconds\": $seconds"
    case ${verdicts[number]} in
        findings | unjudged)
            take_fields "$number"
            take_unasked "$number"
            line+=", \"by_rule\": $by_rule, \"places\": $as_fields"
            [ "$values" = asked ] && values=false || values=true
            line+=", \"not_asked\": {\"values\": $values, \"indexes\": [$apart_names]}"
            [ -z "${is_known[number]:-}" ] || line+=', "allowed": true'
            ;;
    esac
    list "${reports[number]}"
    line+=", \"report\": $listed"
    list "${files[number]}"
    line+=", \"files\": $listed"
    list "${left_out[number]}"
    line+=", \"left_out\": $listed}"
    put "$json_out" '%s\n' "$line"
}

# The last line, of all.
write_last_json() {
    local stamp listed
    stamp_line
    list "$(printf '%s\n' ${file_findings[@]+"${file_findings[@]}"})"
    put "$json_out" '{"at": "%s", "tables": %s, "blocks": %s, "seconds": %s, ' \
        "$stamp" "$total" "$total_blocks" "$seconds"
    put "$json_out" '"clean": %s, "findings": %s, "unjudged": %s, "refused": %s, "allowed": %s, ' \
        "$clean" "$findings" "$unjudged" "$refused" "$known"
    put "$json_out" '"judged": {"tables": [%s, %s], "blocks": [%s, %s], "indexes": [%s, %s]}, ' \
        "$judged_tables" "$all_tables" "$judged_blocks" "$all_blocks" "$judged_indexes" "$left_btrees"
    put "$json_out" '"files": %s, "file_findings": %s, ' "$looked_at" "$listed"
    put "$json_out" '"left_out": {"tables": %s, "indexes": %s, "missing_values": %s, "without_files": %s}, ' \
        "$left_tables" "$left_indexes" "$left_values" "$without_files"
    put "$json_out" '"verdict": "%s", "status": %s}\n' "$verdict" "$status"
}
