#!/bin/sh
# Runs crates/open/out/open with room on the stack for 64 MiB of Argon2's memory:   examples/open.sh VAULT [KEYFILE]
#
# The password is a line on standard input, as for the program itself. Where the system does not allow a stack of 96
# MiB, it is as large as is allowed: the program looks how much that is, and refuses with 17 a vault that needs more.
ulimit -S -s 98304 2>/dev/null || ulimit -S -s "$(ulimit -H -s)"
exec "$(dirname "$0")/../crates/open/out/open" "$@"
