#!/usr/bin/env bash
# Does the jobs of a folder side by side on this machine, by `xargs -P`; a job that fails is done again, up to three times.
#   bash xargs.sh FOLDER [WORKERS]    WORKERS is the number of processors where none is given
set -euo pipefail
. "$(dirname "${BASH_SOURCE[0]}")/rounds.sh"

[ $# -ge 1 ] && [ $# -le 2 ] || stop "the words are FOLDER [WORKERS]"
cd -- "$1" || exit 2
workers=${2:-$(nproc)}

round() {
    xargs -n 1 -P "$workers" python3 "$parts" answer || true
}

rounds . round
