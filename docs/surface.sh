#!/usr/bin/env bash
# Finds each item of SURFACE.md's table by its name in its crate's source, or in what that passes on.
# Prints those that are missing.
cd "$(dirname "$0")/.." || exit 1
missing=0
while IFS='|' read -r _ crate items _; do
    crate=$(echo "$crate" | tr -d ' ')
    case "$crate" in bz_*) ;; *) continue ;; esac
    for item in $(echo "$items" | tr ',' ' '); do
        if ! grep -rqE "(^|[^a-z_])(fn|struct|enum|trait|type|const) $item([^A-Za-z0-9_]|\$)|^pub use .*[{:, ]$item[,;} ]" "crates/$crate/src"; then
            echo "$crate: $item"
            missing=$((missing + 1))
        fi
    done
done < docs/SURFACE.md
echo "$missing missing"
[ "$missing" -eq 0 ]
