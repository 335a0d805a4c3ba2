#!/usr/bin/env bash
# Checks that `check` tells the first fault of a specification, in the order of trial: most cases have the next fault, too.
set -euo pipefail

cd "$(dirname "${BASH_SOURCE[0]}")/.."
. checks/count.sh
. checks/built.sh

# Parts of specifications, by the words that the cases use.
declare -A part=(
    ['S']='{"name":"S","in":["a"],"out":["b"]}'
    ['K']='{"name":"K","in":["a"],"out":["b"]}'
    ['L']='{"name":"L","in":["a"],"out":["b"]}'
    ['P']='{"name":"P","in":["x"],"out":["y"]}'
    ['P-xx']='{"name":"P","in":["x"],"out":["x"]}'
    ['?']='{"name":"?"}'
    ['S=P']='{"head":"S","body":[["u","P"]],"in":[["a","u.x"]],"out":[["u.y","b"]]}'
    ['K=P']='{"head":"K","body":[["u","P"]],"in":[["a","u.x"]],"out":[["u.y","b"]]}'
    ['S=K']='{"head":"S","body":[["u","K"]],"in":[["a","u.a"]],"out":[["u.b","b"]]}'
    ['K=K']='{"head":"K","body":[["u","K"]],"in":[["a","u.a"]],"out":[["u.b","b"]]}'
    ['K=L']='{"head":"K","body":[["u","L"]],"in":[["a","u.a"]],"out":[["u.b","b"]]}'
    ['L=K']='{"head":"L","body":[["u","K"]],"in":[["a","u.a"]],"out":[["u.b","b"]]}'
    ['K=P,K']='{"head":"K","body":[["u","P"],["v","K"]],"edges":[["u.y","v.a"]],"in":[["a","u.x"]],"out":[["v.b","b"]]}'
    ['K=K,K']='{"head":"K","body":[["u","K"],["v","K"]],"edges":[["u.b","v.a"]],"in":[["a","u.a"]],"out":[["v.b","b"]]}'
    ['S=?']='{"head":"S","body":[["?","P"]]}'
    ['S=Z']='{"head":"S","body":[["u","Z"]]}'
    ['Y=P']='{"head":"Y","body":[["u","P"]]}'
    ['S=']='{"head":"S","body":[]}'
    ['S=u,u']='{"head":"S","body":[["u","P"],["u","P"]]}'
    ['S=P-to-v']='{"head":"S","body":[["u","P"]],"in":[["a","v.x"]],"out":[["u.y","b"]]}'
    ['S=P-to-output']='{"head":"S","body":[["u","P"]],"in":[["a","u.y"]],"out":[["u.y","b"]]}'
    ['S=P-twice']='{"head":"S","body":[["u","P"]],"in":[["a","u.x"],["a","u.x"]],"out":[["u.y","b"]]}'
    ['S=P-without']='{"head":"S","body":[["u","P"]],"out":[["u.y","b"]]}'
    ['S=P-around']='{"head":"S","body":[["u","P"],["v","P"],["w","P"]],"edges":[["u.y","v.x"],["v.y","u.x"]],"in":[["a","w.x"]],"out":[["w.y","b"]]}'
    ['of-Z']='{"module":"Z","pairs":[]}'
    ['of-S']='{"module":"S","pairs":[]}'
    ['of-P']='{"module":"P","pairs":[]}'
    ['of-P-zz']='{"module":"P","pairs":[["zz","y"]]}'
    ['of-P-aa']='{"module":"P","pairs":[["x","aa"]]}'
    ['of-P-yx']='{"module":"P","pairs":[["y","x"]]}'
)

# The parts that words name, with commas between.
parts() {
    local text='' word
    for word in $1; do
        text+=${text:+,}${part[$word]}
    done
    echo "$text"
}

# Whether a specification of this start, these modules, productions, deps and versions is refused for this fault.
tells() {
    local status=0
    printf '{"start":"%s","modules":[%s],"productions":[%s],"deps":[%s],"versions":[%s]}' "$1" "$(parts "$2")" "$(parts "$3")" "$(parts "$4")" "$6" >"$work/spec"
    "$program" check "$work/spec" >"$work/out" 2>"$work/err" </dev/null || status=$?
    [ "$status" = 2 ] && [ ! -s "$work/out" ] && [ "$(cat "$work/err")" = "refused: spec: $5" ]
}

# The words of globs stand for themselves.
set -f
while IFS='|' read -r start modules productions deps fault versions; do
    check "$fault is told of $modules with $productions${deps:+ and $deps}${versions:+ and versions $versions}" tells "$start" "$modules" "$productions" "$deps" "$fault" "$versions"
done <<'CASES'
S|S ?|S=?||NameBad module 1
S|S P S|S=P S=?||NameBad production 1
S|S P-xx S|||NameTwice module 2
S|S P P-xx|||NameTwice module 2
Z|S P-xx|Y=P||PortTwice module 1
Z|S P|Y=P||UnknownModule start
S|S P|S=P Y=P|of-Z|UnknownModule production 1
S|S P|S=Z|of-Z|UnknownModule production 0
S|S P|S=|of-P of-Z|UnknownModule deps 1
S|S P|S=u,u S=||EmptyBody production 1
S|S P|S=P-to-v S=u,u||PositionTwice production 1
S|S P|S=P S=P-to-v|of-P-zz|UnknownPort production 1
S|S P|S=P-to-output|of-P-zz|UnknownPort production 0
S|S P|S=P-twice|of-P-zz|UnknownPort deps 0
S|S P|S=P|of-P of-P-aa of-S|UnknownPort deps 1
S|S P|S=P|of-P of-P-yx of-S|UnknownPort deps 1
S|S P|S=P-without S=P-twice||PortLinkedTwice production 1
S|S P|S=P-around S=P-without||PortUnlinked production 1
S|S P|S=P-around|of-S|BodyCycle production 0
S|S P K|S=P K=P|of-P of-S|DepsOnComposite deps 1|[9,9]
S|S P K|S=P K=P||VersionBad version 1|[2,1],[0,0]
S|S P K|S=P K=P||VersionBad version 0|[2,2],[2,1]
S|S K P|S=P||VersionBad version 0|[1,1]
S|S P|S=P||VersionBad version 1|[2,1],[2,2]
S|S P|S=P||VersionBad version 0|[3,1]
S|S P K|S=P K=K||Unreachable K
S|S K P|S=K K=K||Unproductive S
K|S K P|K=K||Unproductive K
S|S K P|S=K K=P K=K||UnitCycle productions 2
S|S K L P|S=K K=P L=K K=L||UnitCycle productions 3 2
S|S K P|S=K K=P K=K K=K,K||UnitCycle productions 2
S|S K P|S=K K=P K=K,K||TwoLoops K first 2 u second 2 v|[3,2]
S|S K P|S=K K=P K=P,K||CycleChanged version 1 module K|[3,3],[3,2],[3,2]
S|P K S|K=P,K S=K K=P K=P,K K=K,K||TwoLoops K first 0 v second 3 v
CASES

too_many=$(printf '[9,9],%.0s' {1..64})
check "65 versions are told before any of them" tells S 'S P' 'S=P' '' TooManyVersions "$too_many[9,9]"

finish
