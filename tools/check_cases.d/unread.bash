# Files that no rule reads: their lengths, and whether one is missing between two.
#
# Needs the lists of cases.bash, `file_findings` of files.bash, `refuse`, `work`, and the data folder as working folder.
# `look_at_files` prints, so that it can run beside the checkers; `keep_found` takes that from the file `found` in the
# folder `work`, and leaves `looked_at` and what is found in `file_findings`.
# shellcheck shell=bash disable=SC2034,SC2154

# The table whose case names a file, in `name`.
find_owner() {
    local number
    name=
    for ((number = 0; number < total; number++)); do
        if [[ $'\n'${files[number]} == *$'\n'"$1"$'\n'* ]]; then
            name=${tables[number]}
            return
        fi
    done
}

# Looks at the lengths of all files of relations in the folders in which those of the cases lie, and whether one is
# missing between two, and prints what it finds: a relation's first file, a tab, and words. The last line has no file,
# and how many were looked at.
look_at_files() {
    local number path place first there=()
    local -A places=()
    for ((number = 0; number < total; number++)); do
        while IFS= read -r path; do
            [ -z "$path" ] || places["${path%/*}"]=1
        done <<<"${files[number]}"
    done
    for place in ${places[@]+"${!places[@]}"}; do
        there+=("$place"/[0-9]*)
    done
    for ((first = 0; first < ${#there[@]}; first += 500)); do
        stat -L -c '%s %f %n' -- "${there[@]:first:500}" 2>/dev/null
    done | full=$segment_blocks awk '
        {
            size = $1
            base = path = substr($0, length($1) + length($2) + 3)
            name = path
            sub(/.*\//, "", name)
            # A regular file, by the highest digit of its mode.
            if ($2 !~ /^8...$/ || name !~ /^[0-9]+(_[a-z]+)?(\.[0-9]+)?$/)
                next
            count++
            segment = 0
            if (name ~ /\./) {
                segment = name
                sub(/.*\./, "", segment)
                sub(/\.[0-9]+$/, "", base)
            }
            if (size % 8192)
                print base "\t" path " has " size " bytes, which is no multiple of 8192"
            sizes[base "." segment + 0] = size
            if (segment + 0 > last[base] + 0)
                last[base] = segment + 0
        }
        END {
            for (base in last)
                for (k = 0; k < last[base]; k++) {
                    path = k ? base "." k : base
                    if (!((base "." k) in sizes)) {
                        print base "\t" path " is missing, and " base "." last[base] " is there"
                        break
                    }
                    after = base "." k + 1
                    if (sizes[base "." k] + 0 < ENVIRON["full"] * 8192 && after in sizes && sizes[after] + 0 > 0) {
                        print base "\t" path " is shorter than a full file, and another one follows it"
                        break
                    }
                }
            print "\t" count + 0
        }
    '
}

# Keeps what look_at_files has found.
looked_at=
keep_found() {
    local path base what name found=()
    mapfile -t found <"$work/found"
    # Mostly there is one line, how many files were looked at.
    [ ${#found[@]} -lt 2 ] || mapfile -t found < <(sort "$work/found")
    for what in ${found[@]+"${found[@]}"}; do
        base=${what%%$'\t'*}
        what=${what#*$'\t'}
        if [ -z "$base" ]; then
            looked_at=$what
            continue
        fi
        path=${base##*/}
        find_owner "${base%/*}/${path%%_*}"
        if [ -n "$name" ]; then
            file_findings+=("file $what ($name)")
        elif [ $((${#patterns[@]} + ${#excluded[@]} + ${#schemas[@]})) -eq 0 ]; then
            file_findings+=("file $what")
        fi
    done
    [ -n "$looked_at" ] || refuse "the lengths of the files in $data can't be asked, with stat and awk"
}
