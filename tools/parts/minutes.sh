#!/usr/bin/env bash
# How long the checks of a run take: `minutes.sh FILE` looks each two seconds at the provers of its own session, until it is ended, and each twenty puts into
# FILE a line `MINUTES WHAT` for each crate: its proof, its tests, its wrong bodies, and what else a tool checks of it in a copy; the longest first, and the sum of
# each kind, in processor minutes. What a prover uses behind the last look at it is not seen, a second on average.
set -euo pipefail
declare -A spent=() what=()
ticks=$(($(getconf CLK_TCK) * 60))
root=$(pwd -P)

# takes down what a process has used by now: PID
look() {
    local words=() stat=() line name=0 at
    read -r line < "/proc/$1/stat" || return 0
    read -ra stat <<< "${line##*) }"
    [ "${#stat[@]}" -gt 19 ] || return 0
    local key=$1.${stat[19]}
    if [ -z "${what[$key]:-}" ]; then
        mapfile -d '' -t words < "/proc/$1/cmdline" || return 0
        for name in "${!words[@]}"; do if [ "${words[name]}" = --crate-name ]; then break; fi; done
        name=${words[name + 1]:-}
        at=$(readlink "/proc/$1/cwd")
        case "$at ${words[*]} " in
            */rt-edit*) what[$key]="wrong bodies of $name" ;;
            "$root/crates/$name "*' --test '*) what[$key]="tests of $name" ;;
            "$root/crates/$name "*) what[$key]="proof of $name" ;;
            *) what[$key]="else of $name" ;;
        esac
    fi
    spent[$key]=$((stat[11] + stat[12] + stat[13] + stat[14]))
}

looks=0
: > "$1"
while sleep 2; do
    for pid in $(pgrep -s 0 -x rattle || true); do look "$pid" 2> /dev/null || true; done
    looks=$((looks + 1))
    [ $((looks % 10)) -eq 0 ] || continue
    for key in "${!spent[@]}"; do echo "${spent[$key]} ${what[$key]}"; done | awk -v ticks="$ticks" '
        { of = $1; kind = $0; sub(/^[0-9]+ /, "", kind); sum[kind] += of; sub(/ of .*/, "", kind); sum["in all: " kind] += of; sum["in all"] += of }
        END { for (it in sum) printf "%.1f %s\n", sum[it] / ticks, it }' | sort -rn > "$1.new"
    mv "$1.new" "$1"
done
