# Finds the built program and makes a folder for a check. It is read by the scripts that try the program.
program=$PWD/crates/wfprov/out/wfprov
if [ ! -x "$program" ]; then
    program=$PWD/wfprov
fi

work=$(mktemp -d)
trap 'rm -rf "$work"' EXIT
