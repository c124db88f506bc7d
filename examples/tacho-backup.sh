#!/bin/sh
# Copies the archive of `tacho.service`, checks the copies, and removes old ones. tacho-backup.service runs it as the service's user: with
# `copy` while the service is stopped, and with `check` after that. docs/OFFICE.md, 'Backup', says what is kept.
#
# A copy is a folder whose name is its time in UTC, as 2026-11-30T013000Z. Before its check the name ends in `.unchecked`, and if the
# archive in it isn't sound, in `.unsound`. Nothing with another name is removed.
set -eu
umask 077
from=${FROM:-/var/lib/tacho}
form='[0-9]\{4\}-[0-9][0-9]-[0-9][0-9]T[0-9]\{6\}Z'
made=
cd "${TO:-/var/backups/tacho}"

# Only one runs at a time. What it was doing is removed when it ends, so that a full disk gets its room back.
exec 9>.lock
flock 9
trap 'rm -rf .copying .checking' EXIT
trap 'exit 1' HUP INT TERM
rm -rf .copying .checking

say() {
    echo "tacho-backup: $*" >&2
}

# Copies the archive and its log, and nothing but regular files: a pipe would have no end, and a link could lead anywhere.
copy() {
    mkdir .copying
    for file in archive.db archive.db-wal; do
        if [ -L "$from/$file" ] || [ -e "$from/$file" ] && [ ! -f "$from/$file" ]; then
            say "$from/$file isn't a regular file"
            exit 1
        fi
        [ ! -e "$from/$file" ] || cp -P "$from/$file" .copying
    done
    if [ ! -s .copying/archive.db ]; then
        say "there is no archive in $from"
        exit 1
    fi
    sync .copying/* .copying
    while name=$(date -u +%Y-%m-%dT%H%M%SZ) && ls -d "$name"* >/dev/null 2>&1; do
        sleep 1
    done
    mv .copying "$name.unchecked"
    sync .
}

# Checks each copy that isn't checked yet. A second copy is opened, since a command writes the log into the file.
check() {
    failed=0
    for unchecked in *.unchecked; do
        name=${unchecked%.unchecked}
        is_copy "$name" || continue
        cp -R "$unchecked" .checking
        status=0
        told=$(tacho check .checking/archive.db) || status=$?
        rm -rf .checking
        case "$status $told" in
        "0 sound")
            mv "$unchecked" "$name"
            made=$name
            echo "$name" >.last
            mv .last last-good
            ;;
        1* | "3 S12"*)
            mv "$unchecked" "$name.unsound"
            say "$name.unsound: tacho check printed: $told"
            failed=1
            ;;
        *)
            say "$unchecked: tacho check ended with status $status, and printed: $told"
            failed=1
            ;;
        esac
    done
}

is_copy() {
    echo "$1" | grep -qx "$form"
}

# Removes the old copies whose names have this ending. Keeps those of the last DAYS days that have a copy, the last of each of the last
# MONTHS months, and the one that was just made, even if the clock was wrong.
remove_old() {
    days=0 day='' months=0 month=''
    # shellcheck disable=SC2010
    ls -r | grep -x "$form$1" | while read -r name; do
        keep=no
        if [ "${name%-*}" != "$month" ]; then
            month=${name%-*}
            months=$((months + 1))
            [ "$months" -gt "${MONTHS:-12}" ] || keep=yes
        fi
        if [ "${name%T*}" != "$day" ]; then
            day=${name%T*}
            days=$((days + 1))
        fi
        [ "$days" -gt "${DAYS:-14}" ] || keep=yes
        [ "$keep" = yes ] || [ "$name" = "$made" ] || rm -rf "./$name"
    done
}

case ${1:-} in
copy)
    copy
    ;;
check)
    check
    for ending in '' '\.unsound' '\.unchecked'; do
        remove_old "$ending"
    done
    exit "$failed"
    ;;
*)
    say "the argument is copy or check"
    exit 2
    ;;
esac
