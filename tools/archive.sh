#!/usr/bin/env bash
# Builds the archive for host programs over the libraries that `rt ci` proved and left in crates/*/out, where `rt lib` would prove each of them
# again. The crate of the entry points is proved once more, as the compiler builds only what it has proved.
#
#     tools/archive.sh
#
# Writes crates/kribbelsteen/out/libkribbelsteen.a.
cd "$(dirname "$0")/.." || exit 2
kit=$(dirname "$(rt doc)") || exit 2
top=$PWD
words=(--crate-name kribbelsteen src/lib.rt --extern "std=$kit/rlibs/std.rlib" -L "dependency=$kit/rlibs")
for name in $(sed -n 's/^kribbelsteen staticlib: //p' crates.txt); do
    words+=(--extern "$name=$top/crates/$name/out/rlib/$name.rlib")
done
for folder in crates/*/out/rlib; do
    words+=(-L "dependency=$top/$folder")
done
words+=(--antt-project "$kit/rattle/logic/antt-project.json" --logic-built "$kit/logic_built" --links kribbelsteen= --jobs 2)
words+=(--crate-type staticlib --toolchain "$kit/toolchain" --backend llvm -o out/libkribbelsteen.a)
mkdir -p crates/kribbelsteen/out && cd crates/kribbelsteen && "$kit/bin/rattle" build "${words[@]}"
