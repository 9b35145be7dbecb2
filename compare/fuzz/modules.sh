#!/usr/bin/env bash
# Puts the LLVM modules of the proved archive and of the proved report program into target/fuzz: raxdov.bc and report.bc. The kit
# hands a proved crate to the clang of its toolchain as one module. Here rt runs in a folder of links to the kit in which clang is
# a script that keeps the module and then runs the kit's clang.
set -eu
here=$(cd "$(dirname "$0")" && pwd)
top=$(cd "$here/../.." && pwd)
kit=$(cd "$(dirname "$(readlink -f "$(command -v rt)")")/.." && pwd)
out=${FUZZ_OUT:-$top/target/fuzz}
mkdir -p "$out"
links=$(mktemp -d)
chmod 755 "$links" # rt runs a program as nobody
trap 'rm -rf "$links"' EXIT
mkdir -p "$links/bin" "$links/toolchain/bin"
for f in "$kit"/*; do
    case $(basename "$f") in bin | toolchain) ;; *) ln -s "$f" "$links/" ;; esac
done
# rt finds its kit by where its own files lie, so these are copies
for f in "$kit/bin"/*; do
    case $f in *.py | */rt | */rt-*) cp "$f" "$links/bin/" ;; *) ln -s "$f" "$links/bin/" ;; esac
done
ln -s "$kit/toolchain/lib" "$links/toolchain/lib"
for f in "$kit/toolchain/bin"/*; do
    tool=$(basename "$f")
    [ "$tool" = clang ] || printf '#!/bin/bash\nexec -a %s %s "$@"\n' "$tool" "$(readlink -f "$f")" > "$links/toolchain/bin/$tool"
done
cat > "$links/toolchain/bin/clang" <<END
#!/bin/bash
for word in "\$@"; do case \$word in *.bc) cp "\$word" "$links/module.bc" ;; esac; done
exec $kit/toolchain/bin/clang "\$@"
END
chmod +x "$links/toolchain/bin"/*

make() { # CRATE COMMAND..
    name=$1
    shift
    rm -f "$links/module.bc" "$top/crates/$name/out/lib$name.a" "$top/crates/$name/out/$name"
    (cd "$top/crates/$name" && "$links/bin/rt" "$@" < /dev/null) > "$out/$name.say" 2>&1 || { cat "$out/$name.say"; exit 1; }
    grep -q "^logic=proved" "$out/$name.say" || { echo "$name: no verdict that it is proved"; exit 1; }
    cp "$links/module.bc" "$out/$name.bc"
    chmod 644 "$out/$name.bc"
    echo "$name.bc: $(stat -c %s "$out/$name.bc") bytes"
}
make raxdov lib
make report run
