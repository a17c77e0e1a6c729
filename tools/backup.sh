#!/bin/sh
# tools/backup.sh FOLDER COPY: copies the folder of a server, which may run meanwhile, to COPY, which isn't there yet.
#
# First comes the database with its log, and then each journal as it lies there. What is in the log is brought into the
# database from time to time, and then the log begins anew with another header: where that changed meanwhile, both are copied
# again. A journal is read from its front to its back, and the byte that makes a record count is written only once the record
# is. So each file is what a killed server could have left: all that was acknowledged before this began is there, and perhaps
# some of what came after. Look at the copy with `padd verify COPY 1`.
set -eu
[ $# -eq 2 ] || { echo "backup.sh FOLDER COPY" >&2; exit 2; }
folder=$1
copy=$2
[ -d "$folder" ] || { echo "backup.sh: $folder is no folder" >&2; exit 2; }
[ ! -e "$copy" ] || { echo "backup.sh: $copy is there already" >&2; exit 2; }
umask 077
mkdir "$copy"

header() {
    [ ! -f "$folder/directory.db-wal" ] || head -c 32 "$folder/directory.db-wal" | od -An -tx1
}

directory() {
    rm -f "$copy/directory.db-wal"
    cp -p "$folder/directory.db" "$copy/directory.db"
    [ ! -f "$folder/directory.db-wal" ] || cp -p "$folder/directory.db-wal" "$copy/directory.db-wal"
}

if [ -f "$folder/directory.db" ]; then
    tries=0
    while before=$(header) && directory && [ "$before" != "$(header)" ]; do
        tries=$((tries + 1))
        [ $tries -lt 1000 ] || { echo "backup.sh: the database is never at rest" >&2; exit 1; }
    done
fi
find "$folder" -maxdepth 1 -type f -name '*.pad' -exec cp -p -t "$copy" {} +
sync -f "$copy"
echo "$(find "$copy" -name '*.pad' | wc -l) pads are copied"
