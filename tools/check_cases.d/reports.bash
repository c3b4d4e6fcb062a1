# What a report of the checker says: its lines taken apart, what it leaves unasked, what is allowed, and how a table
# that isn't clean is told.
#
# Needs the lists of cases.bash, `verdicts`, `reports`, `is_allowed`, `several`, `put` and `make_valid`. What each
# function leaves is said above it.
# shellcheck shell=bash disable=SC2034,SC2154

# How many of the unjudged tables are allowed to be so, and which.
known=0
is_known=()

# The names of a table's indexes as its case has them, in `names`.
take_names() {
    local line
    names=()
    while IFS= read -r line; do
        [ -z "$line" ] || names+=("${line%%$'\t'*}")
    done <<<"${indexes[$1]}"
}

# Takes the words of a line of a report apart: the rule, the relation, the index's number or nothing, and what comes
# after these, in `rule`, `relation`, `index` and `place`. A line that is no finding and no doubt is passed over.
take_line() {
    local IFS=' '
    [[ $1 =~ ^(finding|unjudged)\ ([A-Z][0-9]+)\ (heap|map|toast|index)(\ .*)?$ ]] || return 1
    kind=${BASH_REMATCH[1]}
    rule=${BASH_REMATCH[2]}
    relation=${BASH_REMATCH[3]}
    index=
    read -r -a place <<<"${BASH_REMATCH[4]}"
    if [ "$relation" = index ]; then
        index=${place[0]}
        place=("${place[@]:1}")
    fi
}

# What of a table wasn't asked because of what is found of it or in doubt: whether its long values were, in `values`,
# and how many of its indexes weren't compared with it, in `apart`, of all in `all_indexes`, with their names in JSON in
# `apart_names`. Findings of the map, the heap and the TOAST table keep all of it from being asked, those of an index
# that index.
take_unasked() {
    local number=$1 line kind rule relation index place names=() count quoted k
    local -A is_apart=()
    values=asked
    apart=0
    apart_names=
    take_names "$number"
    count=$(wc -l <<<"${files[number]%$'\n'}")
    while IFS= read -r line; do
        take_line "$line" || continue
        if [ "$relation" != index ]; then
            [ "$rule" = H21 ] || [ "$count" -lt $((${#names[@]} + 2)) ] || values=unasked
            for k in "${!names[@]}"; do
                is_apart[$k]=1
            done
        elif [[ $rule != X* && $rule != U6 ]]; then
            is_apart[$((index - 1))]=1
        fi
    done <<<"${reports[number]}"
    for k in "${!names[@]}"; do
        [ -n "${is_apart[$k]:-}" ] || continue
        apart=$((apart + 1))
        make_valid "${names[k]}" "\\\\"
        apart_names+=${apart_names:+, }$valid
    done
    all_indexes=${#names[@]}
}

# Whether a doubt of a table is allowed, by the words that take_line leaves and the index's name: by the rule, by the
# table, or by the table with either. The table may have its database with it, as it is told where they are several.
is_doubt_allowed() {
    local table line
    [ -z "${is_allowed[$rule]:-}" ] || return 0
    for table in "${tables[$1]}" "${tables[$1]} of ${databases[$1]}"; do
        for line in "$table" "$table"$'\t'"$rule" "$table"$'\t'"$name"; do
            [ -z "${is_allowed[$line]:-}" ] || return 0
        done
    done
    return 1
}

# Whether all that can't be judged of a table is allowed: then it is told, and the status doesn't hang on it.
allow() {
    local number=$1 line kind rule relation index place names=() name count=0
    [ ${#is_allowed[@]} -gt 0 ] || return 0
    take_names "$number"
    while IFS= read -r line; do
        take_line "$line" || continue
        name=
        if [ -n "$index" ]; then
            name=${names[index - 1]#\"}
            name=${name%\"}
        fi
        is_doubt_allowed "$number" || return 0
        count=$((count + 1))
    done <<<"${reports[number]}"
    # More may be counted than are printed.
    [[ ${reports[number]} == *"findings 0 unjudged $count" ]] || return 0
    is_known[number]=1
    known=$((known + 1))
}

# How many findings and doubts each rule has in each relation, and in which blocks, where they are many.
tell_counts() {
    local number=$1 line kind rule relation index place what block total=0
    local -A counts=() lowest=() highest=()
    local -a order=()
    while IFS= read -r line; do
        take_line "$line" || continue
        what="$rule $relation${index:+ $index}"
        block=${place[1]:-0}
        if [ -z "${counts[$what]:-}" ]; then
            order+=("$what")
            counts[$what]=0
            lowest[$what]=$block
            highest[$what]=$block
        fi
        counts[$what]=$((counts[$what] + 1))
        [ "$block" -ge "${lowest[$what]}" ] || lowest[$what]=$block
        [ "$block" -le "${highest[$what]}" ] || highest[$what]=$block
        total=$((total + 1))
    done <<<"${reports[number]}"
    [ "$total" -gt 20 ] || return 0
    for what in "${order[@]}"; do
        case ${what%% *} in
            S1) line='segments' ;;
            X1 | X3 | U6) line='tuples of the blocks' ;;
            *) line='blocks' ;;
        esac
        put "$text_out" '    %s of %s, %s %s to %s\n' "${counts[$what]}" "$what" "$line" "${lowest[$what]}" \
            "${highest[$what]}"
    done
    [[ ${reports[number]} =~ findings\ ([0-9]+)\ unjudged\ ([0-9]+)$ ]]
    [ $((BASH_REMATCH[1] + BASH_REMATCH[2])) -le "$total" ] \
        || put "$text_out" '    of these %s, which are printed; there are more\n' "$total"
}

# The lines of a table that isn't clean: what the checker says, what it didn't ask, and which files and indexes it
# speaks of.
tell_table() {
    local number=$1 line count=0 name file unasked='' values apart apart_names all_indexes valid
    put "$text_out" '%s %s%s%s\n' "${verdicts[number]}" "${tables[number]}" "${several:+ of ${databases[number]}}" \
        "${is_known[number]:+ (allowed)}"
    tell_counts "$number"
    while IFS= read -r line; do
        put "$text_out" '    %s\n' "$line"
    done <<<"${reports[number]}"
    [ "${verdicts[number]}" != refused ] || return 0
    if [[ ${reports[number]} == 'finding file '* ]]; then
        put "$text_out" '    not asked: all else of the table\n'
        return
    fi
    take_unasked "$number"
    [ "$values" = asked ] || unasked='long values (H21)'
    [ "$apart" -eq 0 ] || unasked+="${unasked:+; }the table against $apart of $all_indexes indexes (X1, X2, X3, U6)"
    [ -z "$unasked" ] || put "$text_out" '    not asked: %s\n' "$unasked"
    put "$text_out" '    heap is %s\n' "${files[number]%%$'\n'*}"
    while IFS=$'\t' read -r name file; do
        count=$((count + 1))
        if [[ ${reports[number]} == *" index $count "* ]]; then
            put "$text_out" '    index %s is %s, %s\n' "$count" "$name" "$file"
        fi
    done <<<"${indexes[number]}"
}
