#!/usr/bin/env bash
# Proves and builds a program, into target/bin, or the archive for host programs, into target/staticlib.
#
#     tools/build.sh NAME
#
# NAME is a program's crate or kribbelsteen. What the check says goes to standard error.
cd "$(dirname "$0")/.." || exit 2
name=${1:?the name of a program, or kribbelsteen}
if [ "$name" = kribbelsteen ]; then
    (cd crates/kribbelsteen && rt lib) >&2 || exit 1
else
    # The run is only for what it builds.
    (cd "crates/$name" && rt run "$name" </dev/null >/dev/null) || exit 1
fi
tools/gather.sh "$name"
