#!/bin/bash
# What tests/program, tests/start and tests/package begin with. They read this file with `.`; it is no test itself.
# $top is the repository, $program what the first argument names, else what the gate left in crates/irig_ed/out. $differ, $guard, $aligner
# and $explainer are what the gate left in crates/irig_diff/out, crates/irig_guard/out, crates/irig_time/out and crates/irig_explain/out.
# $work is a folder that is removed at the end.
top=$(cd -- "$(dirname -- "$(readlink -f -- "$0")")/.." && pwd) || exit 1
program=$(readlink -f -- "${1:-$top/crates/irig_ed/out/irig_ed}")
[ -x "$program" ] || { echo "no program at ${1:-crates/irig_ed/out/irig_ed}"; echo "0 passed, 1 failed"; exit 1; }
# shellcheck disable=SC2034
differ=$top/crates/irig_diff/out/irig_diff
# shellcheck disable=SC2034
guard=$top/crates/irig_guard/out/irig_guard
# shellcheck disable=SC2034
aligner=$top/crates/irig_time/out/irig_time
# shellcheck disable=SC2034
explainer=$top/crates/irig_explain/out/irig_explain
work=$(mktemp -d) || exit 1
trap 'chmod -R u+w "$work"; rm -rf "$work"' EXIT
# nobody has to reach the folder
chmod 755 "$work"
passed=0
failed=0
# check NAME WANTED GOT
check() {
    if [ "$2" = "$3" ]; then
        passed=$((passed + 1))
    else
        failed=$((failed + 1))
        printf 'FAILED %s\n wanted: %s\n got:    %s\n' "$1" "$2" "$3"
    fi
}
