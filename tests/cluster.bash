# A small PostgreSQL cluster in a temporary folder, for the tests that source this file: `skip`, `die`, `pass`, `fail`,
# the server's start and stop, and ways to damage files. They set `top` (the checkout) and `program` (the checker)
# first. The server listens on a socket in that folder only. It is stopped and the folder is removed however the test
# ends. Run as root, the server runs as the user postgres, or as nobody where there is no such user.
# shellcheck shell=bash disable=SC2154
export LC_ALL=C
unset PGHOST PGHOSTADDR PGPORT PGUSER PGDATABASE PGDATA PGOPTIONS PGSERVICE PGCLIENTENCODING PGSSLMODE KAMZUDREV
passed=0
failed=0

skip() {
    echo "skipped: $1"
    exit 0
}

# The folder of the server's programs: that of the newest version of a package, or the path.
find_server() {
    local folder
    # shellcheck disable=SC2012 # the packages' folders have plain names
    for folder in $(ls -d /usr/lib/postgresql/*/bin /usr/pgsql-*/bin 2>/dev/null | sort -Vr); do
        if [ -x "$folder/initdb" ] && [ -x "$folder/pg_ctl" ]; then
            echo "$folder"
            return
        fi
    done
    if command -v initdb >/dev/null && command -v pg_ctl >/dev/null; then
        dirname "$(readlink -f "$(command -v initdb)")"
    fi
}

server=$(find_server)
[ -n "$server" ] || skip 'no PostgreSQL server is installed (initdb)'
command -v psql >/dev/null || skip 'psql is not installed'
if [ ! -x "$program" ]; then
    echo "the program $program isn't there or can't be run"
    exit 1
fi
program=$(cd "$(dirname "$program")" && pwd)/$(basename "$program")

# The server refuses to run as root.
as_server=()
if [ "$(id -u)" -eq 0 ]; then
    command -v runuser >/dev/null || skip 'runuser is not installed, and the server does not run as root'
    user=postgres
    id "$user" >/dev/null 2>&1 || user=nobody
    as_server=(runuser -u "$user" --)
fi

folder=$(mktemp -d "/tmp/$(basename "$0").XXXXXX")
data=$folder/data

clean_up() {
    if [ -f "$data/postmaster.pid" ]; then
        "${as_server[@]}" "$server/pg_ctl" -D "$data" -m immediate -w stop >/dev/null 2>&1
    fi
    cd /
    rm -rf "$folder"
}
trap clean_up EXIT
trap 'exit 1' INT TERM HUP

mkdir "$folder/temporary"
[ ${#as_server[@]} -eq 0 ] || chown "$user" "$folder"
cd "$folder" || exit 1
export TMPDIR=$folder/temporary
export KAMZUDREV=$program

die() {
    echo "$1"
    [ ! -f "$folder/log" ] || tail -n 20 "$folder/log"
    exit 1
}

pass() {
    echo "pass $1"
    passed=$((passed + 1))
}

fail() {
    echo "FAIL $1"
    [ -z "${2:-}" ] || printf '%s\n' "$2" | head -n 30 | sed 's/^/    /'
    failed=$((failed + 1))
}

# A database, and psql's words.
sql() {
    psql -XqAt -v ON_ERROR_STOP=1 -h "$folder" -U owner -d "$@"
}

make_cluster() {
    "${as_server[@]}" "$server/initdb" -D "$data" -U owner -A trust -E UTF8 --no-locale -N >"$folder/initdb" 2>&1 \
        || die "initdb fails: $(cat "$folder/initdb")"
}

start() {
    "${as_server[@]}" "$server/pg_ctl" -D "$data" -l "$folder/log" -w -o "-c listen_addresses='' \
-c unix_socket_directories='$folder' -c fsync=off -c autovacuum=off -c max_wal_size=256MB \
-c max_prepared_transactions=2" start >/dev/null \
        || die 'the server does not start'
}

stop() {
    "${as_server[@]}" "$server/pg_ctl" -D "$data" -m "$1" -w stop >/dev/null || die 'the server does not stop'
}

make_cases() {
    "$top/tools/cases_from_server" "$@"
}

check() {
    "$top/tools/check_cases" "$data" "$@"
}

# Makes the file of a relation longer, to so many blocks, in segments of 1 GiB that take no room.
stretch() {
    local file=$1 blocks=$2 segment=0
    while [ "$blocks" -gt 131072 ]; do
        truncate -s 1G "$file${segment#0}"
        blocks=$((blocks - 131072))
        segment=.$((${segment#.} + 1))
    done
    truncate -s $((blocks * 8192)) "$file${segment#0}"
}

# The file of a table of a case: the case, and the key that names it.
file_of() {
    sed -n "s|^$2 = \"\(.*\)\"\$|$data/\1|p" "$1" | head -n 1
}

# The file of an index of a case.
index_of() {
    sed -n "/^name = \"$2\"\$/,/^file/s|^file = \"\(.*\)\"\$|$data/\1|p" "$1"
}

# Exchanges bits of one byte of a file: the file, the byte's place, and the bits.
flip() {
    local byte
    byte=$(od -An -tu1 -j"$2" -N1 "$1" | tr -d ' ')
    # shellcheck disable=SC2059 # the byte is written by its number
    printf "\\x$(printf '%02x' $((byte ^ $3)))" | dd of="$1" bs=1 seek="$2" conv=notrunc status=none
}

# Where an item of a page begins in its file: the file, the block and the item.
place_of() {
    local at=$(($2 * 8192))
    echo $((at + $(od -An -tu2 -j$((at + 20 + 4 * $3)) -N2 "$1" | tr -d ' ') % 32768))
}
