#!/bin/sh
# Runs of the program that are disturbed once each. Each request for memory is refused, each read and each
# write fails, and each moves one byte where it was to move more: one of them in each run, by its number from
# 1 on, until a run meets none.
#
# A run that is refused memory ends with status 6 and no output, or by `seal` with whole stanzas from the front of
# its output, or as if nothing had been refused. One whose read fails ends with status 4 and no output, one whose
# write fails with status 5 and a front of its output, and one of short reads and writes as if nothing had been
# short. Each run has a line, with `other` where it ended in none of these ways; the last lines count them.
#
# Run it at the top of the repository, behind `rt run` in crates/fizlopek, with a folder for its files. It
# wants Linux and a C compiler, for a library that stands in front of the C library:
#
#     sh crates/hostile/refused_memory.sh /tmp/refused
set -eu
mkdir -p "$1"
program=$(pwd)/crates/fizlopek/out/fizlopek
cd "$1"

# The runs: a name, the words, and the file that is read.
runs() {
    cat << 'END'
open-no-message|open 768 sha256 aes256 65536|zeros
open-three-messages|open 768 sha256 aes256 65536|messages
open-not-opened|open 768 sha256 aes256 65536|changed
open-malformed|open 768 sha256 aes256 65536|malformed
open-no-head|open 768 sha256 aes256 65536|empty
key|key 768|seed
key-malformed|key 768|empty
seal-no-message|seal 768 sha256 aes256|letter-of-none
seal-three-messages|seal 768 sha256 aes256|letter
seal-malformed|seal 768 sha256 aes256|letter-cut
seal-invalid-key|seal 768 sha256 aes256|letter-to-ones
gen|gen 3|empty
no-command|open 769 sha256 aes256 65536|messages
no-words||empty
END
}

# What stands in front of the C library. REFUSE says what is refused, NUMBER the number of the call, and MET
# the file that then tells which call it was.
cat > refuse.c << 'END'
#include <errno.h>
#include <fcntl.h>
#include <stdlib.h>
#include <string.h>
#include <sys/syscall.h>
#include <unistd.h>

void *__libc_malloc(size_t);
void *__libc_realloc(void *, size_t);

static long calls;

static int is_due(const char *what, const char *call)
{
    const char *refused = getenv("REFUSE");
    if (!refused || strcmp(refused, what) || ++calls != atol(getenv("NUMBER")))
        return 0;
    int fd = open(getenv("MET"), O_CREAT | O_WRONLY | O_TRUNC, 0600);
    syscall(SYS_write, fd, call, strlen(call));
    close(fd);
    return 1;
}

void *malloc(size_t size)
{
    if (!is_due("memory", "malloc"))
        return __libc_malloc(size);
    errno = ENOMEM;
    return 0;
}

void *realloc(void *old, size_t size)
{
    if (!is_due("memory", "realloc"))
        return __libc_realloc(old, size);
    errno = ENOMEM;
    return 0;
}

static ssize_t move(long number, const char *call, int fd, void *bytes, size_t size)
{
    if (is_due("io", call)) {
        errno = EIO;
        return -1;
    }
    if (size > 1 && is_due("short", call))
        size = 1;
    return syscall(number, fd, bytes, size);
}

ssize_t read(int fd, void *bytes, size_t size)
{
    return move(SYS_read, "read", fd, bytes, size);
}

ssize_t write(int fd, const void *bytes, size_t size)
{
    return move(SYS_write, "write", fd, (void *)bytes, size);
}
END
cc -O1 -shared -fPIC -fno-builtin -o refuse.so refuse.c

# The inputs: a seed of zeros, its key, and mails to it.
: > empty
printf '%0128d\n' 0 > seed
"$program" key 768 < seed > key
printf '%064d\n' 0 > source
{ cat key; echo 00ff; cat source; } > letter-of-none
{ cat letter-of-none; printf '\n00\n68656c6c6f\n'; } > letter
{ cat letter-of-none; printf '\n0'; } > letter-cut
{ printf '%02368d\n' 0 | tr 0 f; echo 00ff; cat source; } > letter-to-ones
"$program" seal 768 sha256 aes256 < letter > mail
{ cat seed; echo 00ff; cat mail; } > messages
sed '/^-> msg$/{n;s/^./A/;}' messages > changed
{ cat seed; printf '\n-> kem\n'; printf '%064d\n' $(seq 22 | sed s/.*/0/) | tr 0 A; printf '%043d\n' 0 | tr 0 A; printf -- '-> done\n\n'; } > zeros
{ cat seed; printf '\n-> x\n/\n'; } > malformed

# Whether a file is a front of another.
is_front() {
    head -c "$(wc -c < "$1")" "$2" | cmp -s - "$1"
}

# Whether a front of a mail is whole stanzas: behind it another begins, or nothing stands.
is_whole() {
    rest=$(tail -c "+$(($(wc -c < "$1") + 1))" "$2" | head -c 3)
    [ -z "$rest" ] || [ "$rest" = '-> ' ]
}

# How a run ended: $1 its words, $2 what was refused, $3 its status, $4 which call it was.
ending() {
    if [ "$3" = "$(cat status)" ] && cmp -s output due; then
        echo unchanged
    elif [ "$2$3" = memory6 ] && { [ ! -s output ] || { [ "${1%% *}" = seal ] && is_front output due && is_whole output due; }; }; then
        echo 6
    elif [ "$2$3$4" = io4read ] && [ ! -s output ]; then
        echo 4
    elif [ "$2$3$4" = io5write ] && is_front output due; then
        echo 5
    else
        echo "other, status $3"
    fi
}

# One run of the words $2 over the input $3, and its status.
run() {
    status=0
    # shellcheck disable=SC2086
    "$@" "$program" $words < "$input" > output || status=$?
}

runs | while IFS='|' read -r name words input; do
    run env
    mv output due
    echo $status > status
    for refused in memory io short; do
        number=1
        while
            rm -f met
            run env LD_PRELOAD="$(pwd)/refuse.so" REFUSE=$refused NUMBER=$number MET=met
            [ -e met ]
        do
            echo "$refused $name $number: $(ending "$words" $refused $status "$(cat met)")"
            number=$((number + 1))
        done
        echo "$refused $name: none at $number: $(ending "$words" $refused $status none)"
    done
done > lines
cat lines
for refused in memory io short; do
    echo "$refused: $(grep "^$refused" lines | grep -vc none) runs"
    grep "^$refused" lines | grep -v none | sed 's/.*: //' | sort | uniq -c
done
