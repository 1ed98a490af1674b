#!/bin/sh
# The whole way of a mail, in four commands: a seed from the system, its key, a mail that is sealed to the
# key, and its messages. Run it at the top of the repository, with a folder for its files:
#
#     sh docs/whole_way.sh /tmp/mail
set -e
mkdir -p "$1"
files=$(cd "$1" && pwd)
cd crates/fizlopek

# A line of hexadecimal digits for so many bytes from the system.
random_line() {
    od -An -v -tx1 -N"$1" /dev/urandom | tr -d ' \n'
    echo
}

# 1. The seed of a decapsulation key.
random_line 64 > "$files/seed"

# 2. Its encapsulation key.
rt try -- key 768 < "$files/seed" > "$files/key"

# 3. A mail of three messages to that key: an empty one, one byte, and `hello`. Its input is the key, the info
# (here `00ff`), a seed of the random source, and the messages.
{ cat "$files/key"; echo 00ff; random_line 32; printf '\n00\n68656c6c6f\n'; } > "$files/letter"
rt try -- seal 768 sha256 aes256 < "$files/letter" > "$files/mail"

# 4. Its messages, for the holder of the seed: the head is the seed and the same info.
{ cat "$files/seed"; echo 00ff; cat "$files/mail"; } > "$files/head-and-mail"
rt try -- open 768 sha256 aes256 65536 < "$files/head-and-mail"
