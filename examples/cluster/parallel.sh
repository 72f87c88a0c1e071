#!/usr/bin/env bash
# The same by GNU parallel, in PARTS parts, on this machine or, with PARALLEL='--sshlogin host1,host2', on others that see the folder.
#   examples/cluster/parallel.sh PARTS FOLDER FILES.. --bars BARS..
# then: ysh totals join FOLDER/part-*.json
# YSH names the program where it is not on the path.
set -euo pipefail
parts=$1
folder=$2
shift 2
seq "$parts" | parallel --quote "${YSH:-ysh}" trials "$@" --part "{}/$parts" --threads 1 --totals "$folder/part-{}.json" \
    --resume "$folder/part-{}.journal"
