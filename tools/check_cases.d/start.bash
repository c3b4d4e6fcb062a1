# What must be there before anything is judged, and where it is told.
#
# Needs `refuse`, `take_path` and `here` of check_cases, and what `take_words` leaves. Each function of the first half
# refuses what isn't there or may not be read, with the user. They leave `program`, whole paths in `data` and `folder`,
# the `cases` and the `lists` of what is left out, `is_allowed` by its lines, the descriptors `text_out` and `json_out`,
# and the temporary folder `work`, which goes when check_cases ends, however that is.
# shellcheck shell=bash disable=SC2034,SC2154

# Who runs this.
who() {
    id -un
}

find_program() {
    local candidate
    for candidate in "${KAMZUDREV:-}" "$here/kamzudrev" "$here/../crates/amcheck_cmd/out/amcheck_cmd"; do
        if [ -n "$candidate" ]; then
            if [ -f "$candidate" ] && [ -x "$candidate" ]; then
                take_path "$candidate"
                program=$path
                return
            fi
            [ "$candidate" != "${KAMZUDREV:-}" ] || break
        fi
    done
    refuse "the checker kamzudrev is neither beside check_cases nor built in its checkout, nor does KAMZUDREV name \
it; what is there must be a program that the user $(who) may run"
}

need_fill_case() {
    [ -x "$here/fill_case" ] || refuse "fill_case must lie beside this program, and $here/fill_case can't be run"
}

owner_of() {
    stat -c %U -- "$1"
}

# A folder that this user may read and enter.
need_folder() {
    [ -e "$1" ] || refuse "there is no folder $1, or the user $(who) may not enter the folder that it is in"
    [ -d "$1" ] || refuse "$1 is no folder"
    if ! [ -r "$1" ] || ! [ -x "$1" ]; then
        refuse "the user $(who) may not read the folder $1, which belongs to $(owner_of "$1"): run check_cases as \
$(owner_of "$1")"
    fi
}

# The data folder of a cluster, and the folder of its cases.
need_folders() {
    need_folder "$data"
    need_folder "$folder"
    take_path "$data"
    data=$path
    take_path "$folder"
    folder=$path
    [ -e "$data/global/pg_control" ] \
        || refuse "$data is no data folder of a cluster: it has no file global/pg_control"
    [ -r "$data/global/pg_control" ] || refuse "the user $(who) may not read $data/global/pg_control, which belongs to \
$(owner_of "$data/global/pg_control"): run check_cases as that user"
}

# The cases and the lists of what is left out, in the folder and in the folders in it: a database each.
find_cases() {
    local case list
    cases=()
    lists=()
    for case in "$folder"/*.toml "$folder"/*/*.toml; do
        [ ! -e "$case" ] || cases+=("$case")
    done
    for list in "$folder"/left-out.txt "$folder"/*/left-out.txt; do
        [ ! -e "$list" ] || lists+=("$list")
    done
    [ ${#cases[@]} -gt 0 ] || [ ${#lists[@]} -gt 0 ] \
        || refuse "$folder has no case, which is a file SCHEMA.TABLE.toml: make them with cases_from_server"
}

# What can't be judged and is known, by its line.
declare -gA is_allowed=()
read_allowed() {
    local line
    [ -n "$allowed_file" ] || return 0
    if ! [ -f "$allowed_file" ] || ! [ -r "$allowed_file" ]; then
        refuse "the user $(who) can't read the file $allowed_file"
    fi
    while IFS= read -r line || [ -n "$line" ]; do
        [[ $line =~ ^[[:space:]]*(#|$) ]] || is_allowed[$line]=1
    done <"$allowed_file"
}

# What is told goes to the descriptor `text_out`, and lines of JSON to `json_out`.
json_out=
open_outputs() {
    { exec {text_out}>&1; } 2>/dev/null || refuse "standard output is closed"
    if [ "$json" = - ]; then
        exec {json_out}>&1
        exec {text_out}>&2
    elif [ -n "$json" ]; then
        [ ! -d "$json" ] || refuse "$json is a folder, and --json wants a file"
        [ ! -p "$json" ] || refuse "$json is a pipe, and --json wants a file; '--json -' is standard output"
        { exec {json_out}>"$json"; } 2>/dev/null || refuse "the user $(who) can't write the file $json"
    fi
}

# Writes to a descriptor what printf makes of the other words. Where that fails nothing that is told can be believed to
# be whole.
put() {
    local target=$1
    shift
    # shellcheck disable=SC2059 # the form is a word of the caller
    { printf "$@" >&"$target"; } 2>/dev/null && return
    [ "$target" = "$json_out" ] \
        || refuse "what is found can't be written to standard output: is it closed, or its disk full?"
    refuse "the lines of JSON can't be written to $json: is it closed, or its disk full?"
}

# The process that looks at files.
looker=

make_work() {
    work=$(mktemp -d) || refuse "no temporary folder can be made"
    take_path "$work"
    work=$path
    trap clean_up EXIT
    trap 'exit 3' INT TERM HUP
    # A reader that goes away makes an error of writing, and no end without a word.
    trap '' PIPE
}

# shellcheck disable=SC2317 # the trap calls it
clean_up() {
    if [ $((${#running[@]} + ${#looker})) -gt 0 ]; then
        kill -TERM ${running[@]+"${running[@]}"} ${looker:+"$looker"}
        wait ${running[@]+"${running[@]}"} ${looker:+"$looker"}
    fi 2>/dev/null
    rm -rf "$work"
}
