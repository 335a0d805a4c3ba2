#!/usr/bin/env bash
# Checks of tools/wfprov.py: stores and runs that are kept open, what they answer, and what ends them.
set -euo pipefail

cd "$(dirname "${BASH_SOURCE[0]}")/.."
. checks/built.sh

python3 checks/module.py "$program"
