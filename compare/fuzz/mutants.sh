#!/usr/bin/env bash
# What the fuzzers can see: changes the product's module in one place at a time (a comparison, a sum, a product, a shift), builds the
# target over it and runs what the fuzzer has kept. Says of each change whether it was found and by what.
#   mutants.sh report COUNT SEED     mutants.sh archive COUNT SEED
# after run.sh, whose corpus and objects it takes.
set -eu
here=$(cd "$(dirname "$0")" && pwd)
top=$(cd "$here/../.." && pwd)
out=${FUZZ_OUT:-$top/target/fuzz}
target=$1 count=$2 seed=$3
case $target in report) module=report ;; archive) module=raxdov ;; *) exit 2 ;; esac
clang=${CLANG:-clang-22} opt=${OPT:-opt-22} objcopy=${OBJCOPY:-llvm-objcopy-22} dis=${DIS:-llvm-dis-22}
tmp=$(mktemp -d)
trap 'rm -rf "$tmp"' EXIT
"$dis" "$out/$module.bc" -o "$tmp/right.ll"
# the places, in an order that the seed gives: line number, tab, the changed line
perl -e '
    srand $ARGV[0];
    %swap = qw(ult ule ule ult ugt uge uge ugt slt sle sle slt sgt sge sge sgt eq ne ne eq);
    while (<STDIN>) {
        $old = $_;
        if (/ = icmp (\w+) /) { s/ = icmp (\w+) / = icmp $swap{$1} / }
        elsif (/ = (add|mul) .*, \d+$/) { s/ (nuw|nsw)//g; s/, (\d+)$/", " . ($1 + 1)/e }
        elsif (/ = (add|sub|mul|xor|udiv|urem) /) { %o = qw(add sub sub add mul add xor or udiv urem urem udiv); s/ (nuw|nsw|exact)//g; s/ = (\w+) / = $o{$1} / }
        elsif (/ = (shl|lshr) .*, \d+$/) { s/ (nuw|nsw|exact)//g; s/, (\d+)$/", " . ($1 + 1)/e }
        push @places, "$.\t$_" if $_ ne $old;
    }
    for ($i = @places; --$i > 0;) { $j = int rand($i + 1); @places[$i, $j] = @places[$j, $i] }
    print @places' "$seed" < "$tmp/right.ll" > "$tmp/places"
found=0
for ((i = 1; i <= count; i++)); do
    IFS=$'\t' read -r line new < <(sed -n "${i}p" "$tmp/places")
    old=$(sed -n "${line}p" "$tmp/right.ll" | sed 's/^ *//')
    function=$(head -n "$line" "$tmp/right.ll" | grep '^define' | tail -1 | sed 's/^[^@]*@//; s/(.*//; s/"//g')
    awk -v l="$line" -v n="$new" 'NR == l { print "  " n; next } { print }' "$tmp/right.ll" > "$tmp/wrong.ll"
    "$opt" -passes=forceattrs -force-attribute=sanitize_address "$tmp/wrong.ll" -o "$tmp/wrong.bc"
    "$clang" -Wno-override-module -x ir "$tmp/wrong.bc" -c -O1 -fPIC -fsanitize=fuzzer-no-link,address -o "$tmp/product.o"
    [ $target = archive ] || "$objcopy" --redefine-sym main=report_main --redefine-sym read=fuzz_read --redefine-sym write=fuzz_write "$tmp/product.o"
    "$clang" -fsanitize=fuzzer,address,undefined "$out/$target-address.$target.o" "$out/$target-address.scope.o" "$tmp/product.o" -lm -o "$tmp/wrong"
    if "$tmp/wrong" -runs=0 -max_len=12000 -timeout=20 -rss_limit_mb=4000 -artifact_prefix="$tmp/" "$out/corpus-$target" > "$tmp/log" 2>&1; then
        how="NOT FOUND"
    else
        found=$((found + 1))
        how=$(grep -aE 'WRONG|AddressSanitizer: |libFuzzer: timeout|libFuzzer: deadly|runtime error' "$tmp/log" | head -1 | sed 's/.*WRONG: //; s/ on .*//; s/^==[0-9]*== *//; s/ERROR: //')
    fi
    echo "$function: $old -> ${new#*= }: ${how:-ended with another error}"
done
echo "$target: $count changes of $(wc -l < "$tmp/places"), $found found"
