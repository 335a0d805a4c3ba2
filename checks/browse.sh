#!/usr/bin/env bash
# Checks of tools/browse.py: its pages, which requests it hears, what ends it, files and programs that are at fault, and clicks in a browser.
set -euo pipefail

cd "$(dirname "${BASH_SOURCE[0]}")/.."
. checks/built.sh
export PYTHONDONTWRITEBYTECODE=1

python3 checks/browse.py "$program"
