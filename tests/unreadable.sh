#!/usr/bin/env bash
# A file that may not be read is a read fault. The administrator may read every file, so the program is then run as
# another user, from a copy that this user may run.
. tests/lib/cases.sh

cp "$TAPC" "$folder/tapc" && cp examples/ping/ping.tap examples/ping/ping.sch "$folder"
cp "$folder/ping.tap" "$folder/closed"
chmod 755 "$folder" "$folder/tapc"
chmod 644 "$folder"/ping.*
chmod 000 "$folder/closed"
as_user=()
if [ "$(id -u)" -eq 0 ]; then
    as_user=(setpriv --reuid=65534 --regid=65534 --clear-groups)
    command -v setpriv >/dev/null || { echo 'no setpriv, to run the program as another user'; exit 77; }
fi
"${as_user[@]}" test -x "$folder/tapc" || { echo 'another user cannot reach the folder of passing files'; exit 77; }

TAPC=$folder/as_user
printf '#!/bin/sh\nexec %s "$@"\n' "${as_user[*]} $folder/tapc" >"$TAPC"
chmod 755 "$TAPC"
writes 0 examples/ping/ping.check check "$folder/ping.tap"
says 4 'read fault' check "$folder/closed"
says 4 'read fault' print "$folder/closed"
says 4 'read fault' world "$folder/closed" "$folder/ping.sch"
says 4 'read fault' world "$folder/ping.tap" "$folder/closed"
finish
