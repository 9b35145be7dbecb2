#!/usr/bin/env bash
# Fuzzes the report program or the archive with libFuzzer:
#   run.sh report SECONDS     run.sh archive SECONDS
# and runs what a fuzzer has kept in target/fuzz/corpus-.. once more, without the fuzzer's time limit, in builds with other checks:
#   run.sh report again       run.sh archive again
# and tells the stack that the archive's functions take, which fails if a run takes more than so many bytes:
#   run.sh stack BYTES
# and calls them with slices of so many megabytes:
#   run.sh big MEGABYTES
# The modules come from modules.sh, which proves and compiles the product if they are not there. Needs Debian's clang-22, llvm-22 and
# libclang-rt-22-dev, as old as the kit's clang, since a module is read only by an LLVM that is no older.
set -eu
here=$(cd "$(dirname "$0")" && pwd)
top=$(cd "$here/../.." && pwd)
out=${FUZZ_OUT:-$top/target/fuzz}
target=${1:-}
seconds=${2:-}
case $target in
report) module=report ;;
archive) module=raxdov ;;
stack | big) module= ;;
*) target= ;;
esac
if [ -z "$target" ] || [ -z "$seconds" ]; then
    sed -n '2,11s/^# \{0,1\}//p' "$0" >&2
    exit 2
fi
clang=${CLANG:-clang-22} opt=${OPT:-opt-22} objcopy=${OBJCOPY:-llvm-objcopy-22}
mkdir -p "$out"
if [ -z "$module" ]; then
    [ -f "$top/crates/raxdov/out/libraxdov.a" ] || (cd "$top/crates/raxdov" && rt lib)
    cc -O2 -I"$top/bindings/c" "$here/$target.c" "$here/scope.c" "$top/crates/raxdov/out/libraxdov.a" -pthread -lm -Wl,-z,now -o "$out/$target"
    "$out/$target" "$seconds"
    exit
fi
[ -f "$out/$module.bc" ] || "$here/modules.sh"

# Compiles the product's module with a check of every access that the optimiser leaves (address), of every access as the compiler
# wrote it (early), or of every use of a value that was never written (memory), with the fuzzer's counters, and the target around it.
build() { # address|early|memory
    made=$out/$target-$1
    case $1 in
    address) flag=address attribute=sanitize_address ;;
    early) flag=address attribute=sanitize_address ;;
    memory) flag=memory attribute=sanitize_memory ;;
    esac
    "$opt" -passes=forceattrs -force-attribute=$attribute "$out/$module.bc" -o "$made.bc"
    if [ "$1" = early ]; then
        "$opt" -passes='forceattrs,asan' -force-attribute=$attribute "$out/$module.bc" -o "$made.bc"
        "$clang" -Wno-override-module -x ir "$made.bc" -c -O1 -fPIC -fsanitize=fuzzer-no-link -o "$made.product.o"
    else
        "$clang" -Wno-override-module -x ir "$made.bc" -c -O2 -fPIC -fsanitize=fuzzer-no-link,$flag -o "$made.product.o"
    fi
    [ $target = archive ] || "$objcopy" --redefine-sym main=report_main --redefine-sym read=fuzz_read --redefine-sym write=fuzz_write "$made.product.o"
    for file in $target scope; do
        "$clang" -std=gnu11 -O2 -g -Wall -Wextra -Werror -I"$top/bindings/c" -fsanitize=$flag,undefined -fno-sanitize-recover=all \
            -c "$here/$file.c" -o "$made.$file.o"
    done
    "$clang" -fsanitize=fuzzer,$flag,undefined "$made.$target.o" "$made.scope.o" "$made.product.o" -lm -o "$made"
}

corpus=$out/corpus-$target
mkdir -p "$corpus"
if [ "$seconds" = again ]; then
    for kind in early memory; do
        build $kind
        echo "$target, $kind, $(find "$corpus" -type f | wc -l) inputs:"
        "$out/$target-$kind" -runs=0 -max_len=12000 -timeout=600 -rss_limit_mb=4000 -artifact_prefix="$out/found-$target-$kind-" "$corpus" 2> "$out/$target-$kind.log" || { cat "$out/$target-$kind.log"; exit 1; }
        grep -E 'DONE|^counts' "$out/$target-$kind.log"
    done
    exit
fi

# the texts that vectors_report replays, each behind its length, and the example
seeds=$out/seeds-$target
rm -rf "$seeds"
mkdir -p "$seeds"
if [ $target = report ]; then
    cp "$top/crates/report/stdin" "$seeds/example"
    perl -e 'binmode STDIN; local $/; $_ = <STDIN>; for ($i = 0; length >= 4; $i++) { $n = unpack "V"; open $f, ">", "$ARGV[0]/$i"; print $f substr($_, 4, $n); $_ = substr $_, 4 + $n }' \
        "$seeds" < "$top/crates/vectors_report/stdin"
    set -- -max_len=12000 -mutate_depth=2 -dict="$here/report.dict"
else
    # scripts of any bytes
    perl -e 'srand 1; for $i (0 .. 99) { open $f, ">", "$ARGV[0]/$i"; print $f pack "C*", map { int rand 256 } 1 .. 20 + 2 * $i }' "$seeds"
    set -- -max_len=256 -len_control=0
fi
build address
"$out/$target-address" -max_total_time="$seconds" -timeout=60 -rss_limit_mb=4000 -print_final_stats=1 -artifact_prefix="$out/found-$target-" "$@" \
    "$corpus" "$seeds" 2> "$out/$target.log" && status=0 || status=$?
grep -E 'INFO: Loaded 1 modules|INITED|DONE|^stat::|^counts|WRONG|ERROR|SUMMARY|runtime error' "$out/$target.log"
exit $status
