#!/usr/bin/env bash
# Copies what `rt ci`, `rt run` and `rt lib` built to where users, the scripts and the host library look for it: the programs to target/bin, the
# archive to target/staticlib.
#
#     tools/gather.sh [NAME..]
#
# NAME is a program or kribbelsteen; all of them if none is given. Says what has not been built, and then fails.
cd "$(dirname "$0")/.." || exit 2
mkdir -p target/bin target/staticlib || exit 2
names=("$@")
if [ $# -eq 0 ]; then
    for main in crates/*/src/main.rt; do
        names+=("$(basename "${main%/src/main.rt}")")
    done
    names+=(kribbelsteen)
fi
status=0
for name in "${names[@]}"; do
    if [ "$name" = kribbelsteen ]; then
        cp crates/kribbelsteen/out/libkribbelsteen.a target/staticlib/ || status=1
    else
        cp "crates/$name/out/$name" "target/bin/$name" || status=1
    fi
done
exit $status
