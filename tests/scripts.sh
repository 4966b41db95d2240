#!/usr/bin/env bash
# Runs random scripts of calls through the program, and compares every byte of its answers, and of the image afterwards, with the reference's.
# Usage: tests/scripts.sh PROGRAM NUMBER
set -euo pipefail
root=$(cd "$(dirname "$0")/.." && pwd)
program=$(realpath "$1")
scratch=$(mktemp -d)
trap 'rm -rf "$scratch"' EXIT

python3 -B "$root/reference/make_scripts.py" "$scratch" "$2" >"$scratch/told" || { cat "$scratch/told"; exit 1; }
cd "$scratch"
scripts=0
calls=0
for script in *.script; do
    name=${script%.script}
    read -r -a options <"$name.options"
    "$program" "${options[@]}" "$script" >out
    cmp out "$name.answers"
    if [ -e "$name.after" ]; then
        cmp "$name.image" "$name.after"
    fi
    scripts=$((scripts + 1))
    calls=$((calls + $(wc -l <"$name.answers")))
done
echo "tests/scripts.sh: $scripts scripts, $calls calls answered as the reference answers them"
