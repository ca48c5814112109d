#!/usr/bin/env bash
# Holds the compiler to the texts of tests/tickets: the first line of each says that it compiles, or the one error that refuses it.
# It uses the library `search` as `rt ci` and `rt lib` build it. The last line is 'N passed, M failed'.
set -u
top=$(cd "$(dirname "$0")/.." && pwd -P)
passed=0
failed=0
(cd "$top/crates/search" && rt lib) > /dev/null 2>&1 || { echo 'the library search is not built'; echo '0 passed, 1 failed'; exit 1; }
parts=()
for part in search spaces; do parts+=(--extern "$part=$top/crates/$part/out/rlib/$part.rlib"); done
for part in "$top"/crates/*/out/rlib; do parts+=(-L "dependency=$part"); done
for text in "$top"/tests/tickets/*.rt.txt; do
    first=$(head -n 1 "$text")
    room=$(mktemp -d)
    mkdir -p "$room/probe/src"
    cp "$text" "$room/probe/src/lib.rt"
    (cd "$room/probe" && rt check probe "${parts[@]}") > "$room/log" 2>&1
    status=$?
    errors=$(grep -c 'error\[' "$room/log")
    if [ "$first" = '// compiles' ]; then
        [ "$status" -eq 0 ] && grep -q '^logic=proved ' "$room/log"
    else
        [ "$status" -eq 1 ] && [ "$errors" -eq 1 ] && grep -qF "error[${first#// refused: }]" "$room/log"
    fi
    if [ $? -eq 0 ]; then
        passed=$((passed + 1))
    else
        failed=$((failed + 1))
        echo "not as its first line says: ${text##*/}"
        head -n 5 "$room/log"
    fi
    rm -rf "$room"
done
echo "$passed passed, $failed failed"
[ "$failed" -eq 0 ]
