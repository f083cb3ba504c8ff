#!/bin/sh
# show.sh: the main job on a sample: list_layout on a stored body, and the incident through the C host, each call beside its answer.
set -e
cd "$(dirname "$0")/.."
incident=tests/desk/incident.txt
echo 'A layout body of one extent: its file offset, length, storage offset and state.'
echo
echo '$ build/list_layout < crates/list_layout/stdin'
build/list_layout < crates/list_layout/stdin
echo
echo 'The incident: after a restart a client reports write errors, all of them on mirror 0 of file 7.'
echo 'Look at the lines that begin with resilver: the answer 0 1 7:1 says that one file needs repair, file 7, and that mirror 1 is the source of the copy.'
echo
echo "\$ build/stellcircle-replay < $incident"
printf '%-43s  %s\n' CALL ANSWER
# of the script's comments all but the first; bytes over twelve digits are shown by the first twelve
build/stellcircle-replay < $incident | awk '
    NR == FNR { answer[NR] = $0; next }
    FNR == 1 { next }
    /^#/ { print ""; print; next }
    NF { call = $1
         for (i = 2; i <= NF; i++) call = call " " (length($i) > 12 ? substr($i, 1, 12) ".." : $i)
         printf "%-43s  %s\n", call, answer[++n] }' - $incident
