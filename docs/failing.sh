#!/usr/bin/env bash
# Lets each allocation of a run of symq fail, and each of its calls of the system, one at a time. The run must end with status 5 or 4
# then, and what it wrote must be a front of its whole output; or it must end as it does else. Prints how many runs ended so, and fails
# where one didn't. Wants the built program as its first argument, and a C compiler: docs/failing.sh crates/symq/out/symq
set -eu
program=$(realpath "$1")
data=$(realpath "$(dirname "$0")/../crates/symq/data")
folder=$(mktemp -d)
trap 'rm -rf "$folder"' EXIT
cd "$folder"
cp "$data"/* .

# Stands before the C library: counts the allocations or the calls of the system, and lets the one of a number fail.
cat > failing.c <<'C'
#define _GNU_SOURCE
#include <dlfcn.h>
#include <errno.h>
#include <fcntl.h>
#include <stdio.h>
#include <stdlib.h>
#include <sys/stat.h>
#include <unistd.h>

static char kind;
static long number, count;

#define NEXT(name) \
    static __typeof__(name) *next; \
    if (!next) next = dlsym(RTLD_NEXT, #name)

static int fails(char of) { return kind == of && ++count == number; }

__attribute__((constructor)) static void begin(void) {
    number = atol(getenv("FAILING_NUMBER"));
    kind = *getenv("FAILING_KIND");
}

__attribute__((destructor)) static void end(void) {
    kind = 0;
    FILE *counted = fopen(getenv("FAILING_COUNT"), "w");
    fprintf(counted, "%ld\n", count);
    fclose(counted);
}

void *malloc(size_t size) {
    NEXT(malloc);
    return fails('m') ? NULL : next(size);
}

void *realloc(void *old, size_t size) {
    NEXT(realloc);
    return fails('m') ? NULL : next(old, size);
}

int open(const char *path, int flags, ...) {
    NEXT(open);
    return fails('s') ? (errno = EIO, -1) : next(path, flags);
}

int statx(int folder, const char *path, int flags, unsigned mask, struct statx *found) {
    NEXT(statx);
    return fails('s') ? (errno = EIO, -1) : next(folder, path, flags, mask, found);
}

ssize_t read(int from, void *to, size_t size) {
    NEXT(read);
    return fails('s') ? (errno = EIO, -1) : next(from, to, size);
}

ssize_t write(int to, const void *from, size_t size) {
    NEXT(write);
    return to != 2 && fails('s') ? (errno = EIO, -1) : next(to, from, size);
}
C
cc -shared -fPIC -O1 -o failing.so failing.c -ldl

# The status of a run with one failure: its kind, its number, and the program's words. Input and output are files.
run() {
    local status=0
    FAILING_KIND=$1 FAILING_NUMBER=$2 FAILING_COUNT=count LD_PRELOAD=./failing.so "$program" "${@:3}" < input > output 2> /dev/null || status=$?
    echo $status
}

wrong=0
# Each failure of one kind, which gives this status, in the run of these words.
each() {
    local kind=$1 failed=$2 whole status ended=0 unmoved=0
    shift 2
    whole=$(run "$kind" 0 "$@")
    mv output whole
    local most=$(cat count)
    for number in $(seq "$most"); do
        status=$(run "$kind" "$number" "$@")
        if [ "$status" = "$whole" ] && cmp -s output whole; then
            unmoved=$((unmoved + 1))
        elif [ "$status" = "$failed" ] && cmp -s output <(head -c "$(stat -c %s output)" whole); then
            ended=$((ended + 1))
        else
            echo "failure $number: status $status" && wrong=1
        fi
    done
    echo "$*: $ended of $most with status $failed, $unmoved as else"
}

# Both kinds of failure, in the run of these words.
both() {
    each memory 5 "$@"
    each system 4 "$@"
}

printf '1174\n1020\nffff\n' > input
both breakpad app.sym
both --no-inlined breakpad absent.sym
"$program" convert app.sym > app.gsym
both gsym app.gsym
both elf "$program"
both canon app.sym
both convert app.sym
printf 'breakpad app.sym 1174 1020\nsingle gsym app.gsym 1174\ncache elf %s\nevict elf %s\n' "$program" "$program" > input
both serve
head -n 3 walk.stacks > input
both stacks walk.sym
mkdir -p store/app.so/AA && cp app.sym store/app.so/AA/app.so.sym
printf 'app.so AA 1174\napp.so BB 1174\n' > input
both frames store
exit $wrong
