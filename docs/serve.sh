#!/usr/bin/env bash
# Shows `symq serve` over a symbol file that another process replaces while requests are answered, and what requests cost beside a
# batch. Wants the built program as its first argument: docs/serve.sh crates/symq/out/symq
set -eu
program=$(realpath "$1")
folder=$(mktemp -d)
trap 'rm -rf "$folder"' EXIT
cd "$folder"

symbols() { printf 'MODULE Linux x86_64 0 app\nFUNC 1000 10 0 %s\n' "$1"; }

# The first argument names what is asked, the others are the program's words. The file has the old symbols at first, and the new ones
# after a moment.
replaced_meanwhile() {
    symbols old > app.sym
    symbols new > next.sym
    { sleep 0.1; mv next.sym app.sym; } &
    "$program" "$@" < requests > answers
    wait
    echo "$*: $(grep -c 'old' answers || true) answers by the old file, $(grep -c 'new' answers || true) by the new one"
}

for _ in $(seq 200000); do echo 'single breakpad app.sym 1004'; done > requests
replaced_meanwhile serve
replaced_meanwhile --no-reload serve

# The same addresses as 10000 requests of one address each, and as one batch.
symbols app > app.sym
for i in $(seq 10000); do printf '%x\n' $((4096 + i % 16)); done > batch
sed 's/^/single breakpad app.sym /' batch > requests
echo '10000 requests of one address each:'
time "$program" serve < requests > by_requests
echo 'One batch of the same 10000 addresses:'
time "$program" breakpad app.sym < batch > by_batch
cmp by_requests by_batch && echo 'Both wrote the same.'
