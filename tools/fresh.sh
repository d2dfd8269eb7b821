#!/bin/bash
# fresh.sh [--kept] [FOLDER]: clones the repository into a new folder of FOLDER (/tmp if none is named) and does there
# what README shows, as a user would: each command, a live session, and the lines in Python. It has a home of its own,
# and a toolchain of its own by hard links, since rt keeps beside the toolchain what it has proved: all is proved from
# nothing, which takes 10 GB of disk and the time of a first build. With --kept it has the toolchain as it stands, and
# all that was proved on this machine. It prints a line for each command: its seconds, its status and the command. The
# status is 0 where each command ended with 0.
set -u
top=$(CDPATH='' cd "$(dirname "$(readlink -f -- "$0")")/.." && pwd)
kit=$(dirname "$(dirname "$(readlink -f -- "$(command -v rt)")")")
is_kept=
[ "${1-}" != --kept ] || { is_kept=1; shift; }
room=$(mktemp -d "${1:-/tmp}/fresh.XXXXXX") || exit 1
trap 'rm -rf "$room"' EXIT
trap 'exit 130' INT
trap 'exit 143' TERM
mkdir "$room/kit" "$room/home" || exit 1
if [ -z "$is_kept" ]; then
    cp -al "$kit" "$room/kit/" 2>/dev/null || cp -a "$kit" "$room/kit/" || exit 1
    export PATH=$room/kit/$(basename "$kit")/bin:$PATH
fi
git clone -q "$top" "$room/clone" || exit 1
export HOME=$room/home
cd "$room/clone" || exit 1
failed=0

# Gives a command, and says how it ended.
give() {
    local begun status
    begun=$(date +%s)
    bash -o pipefail -c "$1" >"$room/said" 2>&1 </dev/null
    status=$?
    [ "$status" -eq 0 ] || { failed=1; tail -20 "$room/said"; }
    echo "$(($(date +%s) - begun)) s, status $status: $1"
}

# The lines of README between a fence of this language and the next one.
lines_of() {
    sed -n "/^\`\`\`$1\$/,/^\`\`\`\$/p" README.md | grep -v '^```'
}

while IFS= read -r line <&3; do
    give "$line"
done 3< <(lines_of sh | sed 's/ *#.*//' | grep .)
give "printf '%s\n' 'write 1 0=0a' 'finish 1' 'read 0' | ./flash_serve disk.img | grep -qx 'page 0 0a0*'"
lines_of python >readme.py
give 'PYTHONPATH=clients/python python3 readme.py'
exit "$failed"
