#!/usr/bin/env bash
# Runs the commands of docs/RUNS.md, and compares what they print with what the page says.
set -euo pipefail

cd "$(dirname "${BASH_SOURCE[0]}")/.."
. checks/built.sh

python3 checks/tutorial.py "$program" --page docs/RUNS.md
