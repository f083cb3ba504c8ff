#!/bin/sh
# build.sh: proves the libraries and the programs, and makes build/libstellcircle.a, which has every C call, and build/list_layout and build/list_rdma_layout.
# Says what it makes. What the prover says goes to target/build.log, and is shown where it fails.
# What was made from the same sources before is not made again.
set -u
cd "$(dirname "$0")/.." || exit 1
mkdir -p build target
: > target/build.log

# below NAME: a crate and all that it stands on in this repository.
below() {
    WANTED=$1 awk '
        function visit(n,    a, k, m) {
            if (!(n in deps) || n in seen) return
            seen[n] = 1
            print n
            m = split(deps[n], a, " ")
            for (k = 1; k <= m; k++) visit(a[k])
        }
        { sub(/#.*/, "") }
        index($0, ":") { split($1, name, ":"); deps[name[1]] = substr($0, index($0, ":") + 1) }
        END { visit(ENVIRON["WANTED"]) }' crates.txt
}

# source_of NAME: one number for all that a crate's proof is made of.
source_of() {
    {
        rt version
        for crate in $(below "$1"); do
            grep "^${crate}[ :]" crates.txt
            find "crates/$crate" \( -name must-fail -o -name out \) -prune -o -type f -print | sort | xargs sha256sum
        done
    } | sha256sum | cut -d' ' -f1
}

# made NAME FILE WORD..: FILE, made of a crate: by `rt WORD..` in its folder, which leaves it in out/.
made() {
    name=$1 file=$2 left=$3
    shift 3
    source=$(source_of "$name")
    if [ -f "$file" ] && [ "$(cat "$file.source" 2> /dev/null)" = "$source" ]; then return; fi
    echo "build: proving and making $file"
    rm -f "crates/$name/out/$left"
    input=/dev/null
    [ ! -f "crates/$name/stdin" ] || input=stdin
    if ! (cd "crates/$name" && rt "$@" < "$input") >> target/build.log 2>&1 || [ ! -f "crates/$name/out/$left" ]; then
        tail -40 target/build.log
        echo "build: rt $* of $name FAILED"
        exit 1
    fi
    cp "crates/$name/out/$left" "$file"
    echo "$source" > "$file.source"
}

made stellcircle_c build/libstellcircle.a libstellcircle_c.a lib
made list_layout build/list_layout list_layout run
made list_rdma_layout build/list_rdma_layout list_rdma_layout run
