# The files that the cases and the lists of what is left out name: whether they are there, and their blocks.
#
# Needs `refuse`, `who` and `owner_of`, the lists of cases.bash, `is_in_catalog`, and the data folder as working folder.
# Leaves `verdicts`, `reports` and `blocks` of each table (a verdict only where a file is lost or can't be read), the
# counts of what is left out, `left_blocks`, `total_blocks`, and in `file_findings` what is found of files that no table
# has.
# shellcheck shell=bash disable=SC2034,SC2154

# Files whose blocks are counted, and for each the number that they are counted for.
sized=()
sized_for=()

# Adds the files of a relation that are there to `sized`, and for each the number that its blocks belong to.
add_sizes() {
    local segment=$1 k
    for ((k = 1; ; k++)); do
        [ -f "$segment" ] || break
        sized+=("$segment")
        sized_for+=("$2")
        segment=$1.$k
    done
}

# Looks for the files that a case names, and refuses the table where one isn't there. What is there is added for its
# blocks.
find_files() {
    local file number=$1
    verdicts[number]=
    reports[number]=
    blocks[number]=0
    while IFS= read -r file; do
        [ -n "$file" ] || continue
        if [ ! -e "$file" ] && is_in_catalog "$file" "${catalogs[number]}"; then
            verdicts[number]=findings
            reports[number]="finding file $file isn't there, and the cluster's catalog has it: it was lost"$'\n'
            reports[number]+='findings 1 unjudged 0'
            break
        elif [ ! -e "$file" ]; then
            verdicts[number]=refused
            reports[number]="the case is older than its files: $file isn't there any more, as after VACUUM FULL, \
TRUNCATE, REINDEX or ALTER TABLE, or the file was lost; make the cases anew"
        elif [ ! -r "$file" ]; then
            verdicts[number]=refused
            reports[number]="the user $(who) may not read $file, which belongs to $(owner_of "$file")"
        fi
        add_sizes "$file" "$number"
    done <<<"${files[number]}"
    [ "${verdicts[number]}" != refused ] \
        || printf 'check_cases: refused: %s: %s\n' "${tables[number]}" "${reports[number]}" >&2
}

# The files of all tables.
find_all_files() {
    local number
    for ((number = 0; number < total; number++)); do
        find_files "$number"
    done
}

# The blocks of each table, of as many files at a time as the system takes in a command, in `blocks`, their sum in
# `total_blocks`, and those of what is left out in `left_blocks`.
count_blocks() {
    local first place=0 size number
    for ((first = 0; first < ${#sized[@]}; first += 500)); do
        while read -r size; do
            blocks[sized_for[place]]=$((${blocks[sized_for[place]]:-0} + size / 8192))
            place=$((place + 1))
        done < <(stat -L -c %s -- "${sized[@]:first:500}")
    done
    left_blocks=${blocks[total]:-0}
    unset "blocks[total]"
    total_blocks=0
    for number in "${!blocks[@]}"; do
        total_blocks=$((total_blocks + blocks[number]))
    done
}

# What the lists say is left out, of the tables that are asked for. The blocks of its files get the number after the
# last table's.
left_tables=0
left_indexes=0
left_btrees=0
left_values=0
without_files=0
# What is found of files, without the word 'finding'.
file_findings=()

# Looks for the files of something that is left out: its name, the file and its blocks when the cases were made, for
# each of its files, and last the catalog.
find_left_out() {
    local name=$1 catalog=${*: -1}
    shift
    while [ $# -gt 2 ]; do
        if [ ! -e "$1" ] && is_in_catalog "$1" "$catalog"; then
            file_findings+=("file $1 isn't there, and the cluster's catalog has it: it was lost ($name)")
        elif [ ! -e "$1" ]; then
            file_findings+=("file $1 isn't there: it was lost, or written anew under another name since the cases were \
made ($name)")
        elif [ ! -s "$1" ] && [[ $2 == [1-9]* ]]; then
            file_findings+=("file $1 is empty, and had $2 blocks when the cases were made ($name)")
        else
            add_sizes "$1" "$total"
        fi
        shift 2
    done
}

# The catalog of a folder's database, in `catalog`: that of one of its cases.
find_catalog() {
    local case line
    catalog=
    for case in "${cases[@]}"; do
        [ "${case%/*}" = "$1" ] || continue
        # It stands in the comments at the head.
        while IFS= read -r line && [[ $line == '#'* ]]; do
            [[ $line != '# Catalog: '* ]] || catalog=${line#'# Catalog: '}
        done <"$case"
        return
    done
}

read_lists() {
    local list kind name reason paths catalog
    for list in ${lists[@]+"${lists[@]}"}; do
        [ -r "$list" ] || refuse "the user $(who) may not read $list, which belongs to $(owner_of "$list")"
        find_catalog "${list%/*}"
        while IFS=$'\t' read -r kind name reason paths; do
            if [ "$kind" = index ] && [[ $name =~ $name_of_table ]]; then
                is_wanted "${BASH_REMATCH[4]}" "${BASH_REMATCH[4]}" || continue
            else
                is_wanted "$name" "$name" || continue
            fi
            case $kind in
                table) left_tables=$((left_tables + 1)) ;;
                'no file') without_files=$((without_files + 1)) ;;
                index)
                    if [ "$reason" = 'its table is left out' ]; then
                        left_indexes=$((left_indexes + 1))
                        left_btrees=$((left_btrees + 1))
                    fi
                    ;;
            esac
            # shellcheck disable=SC2086 # names of files have no spaces, and their blocks are numbers
            [ -z "$paths" ] || find_left_out "$name" $paths "$catalog"
        done <"$list"
    done
}
