# The words that check_cases is called with.
#
# Needs `refuse`. `take_words` ends with the text on the options where that is asked for, and with status 3 where the
# words are wrong. Else it leaves what they say: `data` and `folder` as they were given, `jobs`, `patterns`, `excluded`,
# `schemas`, `allowed_file`, `json`, `progress` (terminal, always or never) and `quiet`.
# shellcheck shell=bash disable=SC2034

usage() {
    cat <<'TEXT'
check_cases checks the tables whose case texts stand in a folder, in the data folder of a PostgreSQL
cluster that was stopped cleanly.

    check_cases DATADIR FOLDER [OPTIONS]

DATADIR is the data folder, or a copy of it. FOLDER was written by cases_from_server, for one database or for
all, a folder in it for each. Each case gets the numbers of the stopped cluster, and is judged by the
checker's command 'all': the table, its visibility map and its TOAST table, and each index that the case lists.

  -j, --jobs N       so many tables at a time (as many as there are processors)
  --only PATTERN     the tables alone whose name matches a pattern of the shell: SCHEMA.TABLE as SQL has it, the
                     table's name alone, or that of its case without .toml; several are possible
  --exclude PATTERN  not the tables whose name matches so; several are possible
  --schema PATTERN   the tables alone whose schema matches; several are possible
  --allow-unjudged FILE
                     what can't be judged, was looked at and shall not change the status: lines of a table, a
                     table and a rule, a table and an index, or a rule, with a tab between two; # begins a comment
  --json FILE        writes a line of JSON for each table when it is done, and a last one for all; FILE is
                     written anew. '-' is standard output, and the text then goes to standard error
  -P, --progress     shows what is done of all, on standard error, where that is no terminal too
  -q, --quiet        shows nothing of it, and prints nothing where all is clean
  --version          the version of the checker
  -h, --help         this text

Standard output has the tables that aren't clean, with what the checker says of them, and then a summary.

The status is 0 where all tables are clean, 1 where any has findings, 2 where none has and something can't
be judged, and 3 for all else: nothing could be checked, a table was refused and no other has findings or is
unjudged, or what is told couldn't be written.

The checker is the program kamzudrev, in the folder of check_cases or built in its checkout, or the one
that KAMZUDREV names. PG_CONTROLDATA names pg_controldata where it isn't in a usual place.
TEXT
}

misuse() {
    refuse "$1 (check_cases --help says more)"
}

jobs=
patterns=()
excluded=()
schemas=()
allowed_file=
json=
progress=terminal
quiet=

take_words() {
    local option value folders=()
    while [ $# -gt 0 ]; do
        case $1 in
            -h | --help)
                usage
                exit 0
                ;;
            --version)
                find_program
                echo "check_cases of $("$program" --version)"
                exit 0
                ;;
            -P | --progress | -q | --quiet)
                case $1 in
                    -P | --progress) [ -n "$quiet" ] || progress=always ;;
                    *)
                        quiet=1
                        progress=never
                        ;;
                esac
                shift
                continue
                ;;
            -j | --jobs | --only | --exclude | --schema | --allow-unjudged | --json)
                [ $# -ge 2 ] || misuse "$1 wants a word after it"
                option=$1
                value=$2
                shift
                ;;
            -j*)
                option=-j
                value=${1#-j}
                ;;
            --*=*)
                option=${1%%=*}
                value=${1#*=}
                ;;
            -?*) misuse "there is no option $1" ;;
            *)
                folders+=("$1")
                shift
                continue
                ;;
        esac
        shift
        case $option in
            -j | --jobs)
                [[ $value =~ ^[1-9][0-9]{0,3}$ ]] || misuse "$option wants a number from 1 to 9999, and not '$value'"
                jobs=$value
                ;;
            --only) patterns+=("$value") ;;
            --exclude) excluded+=("$value") ;;
            --schema) schemas+=("$value") ;;
            --allow-unjudged) allowed_file=$value ;;
            --json)
                [ -n "$value" ] || misuse "$option wants the name of a file"
                json=$value
                ;;
            *) misuse "there is no option $option" ;;
        esac
    done
    [ ${#folders[@]} -eq 2 ] || misuse "name two folders: the cluster's data, and the cases"
    data=${folders[0]}
    folder=${folders[1]}
    [ -n "$jobs" ] || jobs=$(nproc)
}
