# The cases, read with the numbers of the stopped cluster.
#
# Needs `refuse`, `here`, what the words say, and `cases`, `data` and `work` of start.bash. `read_cases` leaves what is
# to be known of each table that is asked for, by the table's number, in the lists below, and the filled-in cases in the
# folder `work`. One awk reads 500 cases at a time: a case costs no process.
# shellcheck shell=bash disable=SC2034,SC2154

# What is known of each table, by its number: its name, its case's, the case with its numbers, the database, the files
# that the case names, the indexes (a name and a file, with a tab between them), what the case leaves out, how many
# columns it lists, the file of the database's catalog of tables, and its blocks.
tables=()
case_names=()
filled_cases=()
databases=()
files=()
indexes=()
left_out=()
columns=()
catalogs=()
blocks=()
# What came out: the verdict, the report or the reason of a refusal, and the numbers.
verdicts=()
reports=()
# How many lines of a case get a number, the cluster that printed the first case, and the blocks of a full file.
numbered=0
cluster=
segment_blocks=131072

# Whether any of the patterns after the third word matches one of the first three.
matches() {
    local pattern
    for pattern in "${@:4}"; do
        # shellcheck disable=SC2053 # a pattern is meant
        [[ $1 != $pattern && $2 != $pattern && $3 != $pattern ]] || return 0
    done
    return 1
}

# A name of SQL, and what it begins or ends with.
name_in_schema='^((U&)?"([^"]|"")*"|[^".]+)\.(.+)$'
name_of_table='^((U&)?"([^"]|"")*"|[^" ]+) of (.+)$'

# Whether a table is asked for, by its name in SQL, with its schema and without, or that of its case.
is_wanted() {
    local schema=$1 name=$1
    [ $((${#patterns[@]} + ${#excluded[@]} + ${#schemas[@]})) -gt 0 ] || return 0
    if [[ $1 =~ $name_in_schema ]]; then
        schema=${BASH_REMATCH[1]}
        name=${BASH_REMATCH[4]}
    fi
    [ ${#patterns[@]} -eq 0 ] || matches "$1" "$2" "$name" "${patterns[@]}" || return 1
    [ ${#schemas[@]} -eq 0 ] || matches "$schema" "$schema" "$schema" "${schemas[@]}" || return 1
    [ ${#excluded[@]} -eq 0 ] || ! matches "$1" "$2" "$name" "${excluded[@]}"
}

# Writes each of some cases with its numbers, as N.toml where N counts up from the first word, and prints what is
# to be known of it: lines of a letter and a text, the first with the letter c and N, the last with n and how many lines
# got a number. Of the first cases the very first is read with its numbers from the standard input, as fill_case prints
# it, and what becomes of its lines becomes of those of the others, which are the same: each line that gets a number,
# and then what it becomes, are put into the file `numbers` for the cases after these, and how many they are is told
# with N.
tell_cases() {
    # shellcheck disable=SC2016 # the dollars are awk's
    work=$work before=$1 awk '
        function end_case() {
            if (place) {
                print "k" columns
                print "n" count
                close(out)
            }
        }
        BEGIN {
            numbers = ENVIRON["work"] "/numbers"
            if (ENVIRON["before"] == 0) {
                while ((getline line < ARGV[1]) > 0 && (getline becomes < "/dev/stdin") > 0)
                    if (line != becomes) {
                        numbered++
                        filled[line] = becomes
                        print line "\n" becomes > numbers
                    }
                close(ARGV[1])
                print "N" numbered + 0
            } else
                while ((getline line < numbers) > 0 && (getline becomes < numbers) > 0)
                    filled[line] = becomes
        }
        FNR == 1 {
            end_case()
            # A case without lines is passed.
            do place++; while (ARGV[place] != FILENAME)
            number = ENVIRON["before"] + place - 1
            out = ENVIRON["work"] "/" number ".toml"
            part = name = ""
            count = columns = 0
            print "c" number
        }
        /^\[/ {
            part = $0
            if (part == "[[column]]")
                columns++
        }
        /^name = / { name = substr($0, 8) }
        /^(toast_)?file = ".*"$/ {
            file = $0
            sub(/^[a-z_]* = "/, "", file)
            sub(/"$/, "", file)
            print "f" file
            if (part == "[[index]]")
                print "i" name "\t" file
        }
        /^# Table: / { print "t" substr($0, 10) }
        /^# Database: / { print "d" substr($0, 13) }
        /^# Cluster: / { print "p" substr($0, 12) }
        /^# Catalog: / { print "g" substr($0, 12) }
        /^segment_blocks = / { print "s" $3 }
        /^# The (index|missing value) / { print "l" substr($0, 3) }
        {
            if ($0 in filled) {
                count++
                print filled[$0] > out
            } else
                print > out
        }
        END { end_case() }
    ' "${@:2}"
}

# Keeps what was told of a case: the lines of one number.
keep_case() {
    local case_name line table='' database='' printed_by='' catalog=''
    local own_files='' own_indexes='' own_left='' count=0 own_columns=0
    case_name=${cases[$1]##*/}
    case_name=${case_name%.toml}
    for line in "${@:2}"; do
        case $line in
            t*) table=${line:1} ;;
            d*) database=${line:1} ;;
            p*) printed_by=${line:1} ;;
            f*) own_files+=${line:1}$'\n' ;;
            i*) own_indexes+=${line:1}$'\n' ;;
            l*) own_left+=${line:1}$'\n' ;;
            k*) own_columns=${line:1} ;;
            g*) catalog=${line:1} ;;
            s*) segment_blocks=${line:1} ;;
            n*) count=${line:1} ;;
        esac
    done
    is_wanted "${table:-$case_name}" "$case_name" || return 0
    [ "$count" -eq "$numbered" ] || refuse "nothing was checked: ${cases[$1]} has no place for the numbers"
    [ "$printed_by" = "$cluster" ] \
        || refuse "nothing was checked: ${cases[$1]} was printed by the cluster $printed_by, and others there by \
$cluster"
    tables+=("${table:-$case_name}")
    case_names+=("$case_name")
    filled_cases+=("$work/$1.toml")
    databases+=("$database")
    files+=("$own_files")
    indexes+=("$own_indexes")
    left_out+=("$own_left")
    columns+=("$own_columns")
    catalogs+=("$catalog")
}

# Has awk tell of some cases, the first of which has the number of the first word, into the file `told`; and of the very
# first cases while fill_case fills the first of them in.
tell_some() {
    local ends
    if [ "$1" -gt 0 ]; then
        tell_cases "$@" >"$work/told" </dev/null
        return
    fi
    "$here/fill_case" "$data" "$2" 2>"$work/said" | tell_cases "$@" >"$work/told"
    ends=("${PIPESTATUS[@]}")
    [ "${ends[0]}" -eq 0 ] \
        || refuse "nothing was checked: $(sed 's/^fill_case: //' "$work/said")"
    return "${ends[1]}"
}

# Keeps what was told of cases.
keep_cases() {
    local number='' line told=() lines=()
    mapfile -t told <"$work/told"
    for line in "${told[@]}"; do
        case $line in
            N*) numbered=${line:1} ;;
            c*)
                number=${line:1}
                lines=()
                ;;
            n*) keep_case "$number" "${lines[@]}" "$line" ;;
            *)
                lines+=("$line")
                [ "$number" != 0 ] || [[ $line != p* ]] || cluster=${line:1}
                ;;
        esac
    done
}

# Reads the cases, and keeps what is to be known of those that are wanted.
read_cases() {
    local first number
    for number in "${!cases[@]}"; do
        [ -r "${cases[number]}" ] || refuse "the user $(who) may not read ${cases[number]}, which belongs to \
$(owner_of "${cases[number]}")"
    done
    for ((first = 0; first < ${#cases[@]}; first += 500)); do
        tell_some "$first" "${cases[@]:first:500}" \
            || refuse "the cases can't be read with awk, or the temporary folder $work can't be written"
        keep_cases
    done
    for number in "${!cases[@]}"; do
        [ -s "${cases[number]}" ] || keep_case "$number"
    done
}
