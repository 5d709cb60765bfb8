# What bench/layers and bench/calls have in common; sourced by both, with $here set to this folder.
# Sets root, out (target/bench) and machine, and ends with exit code 77 where something that is needed is not at hand.
root=$(dirname "$here")
out=$root/target/bench
oracle=$root/target/oracle
machine=$(uname -m)

say() { echo "bench: $*" >&2; }
need() { command -v "$1" >/dev/null 2>&1 || { say "$1 is missing: $2"; exit 77; }; }
need rt "install the Rattle kit that README.md names"
need rustc "install Rust, as Debian's package rustc"
need python3 "install Debian's package python3"
need cc "install Debian's package gcc"
mkdir -p "$out"

compile() { rustc -C opt-level=3 -C codegen-units=1 -C overflow-checks=off -L "dependency=$oracle" "$@"; }

# The original for timing: out/libfmt_cube.rlib and out/libfmt_powf.rlib, those of tests/oracle in one codegen unit, with the breakers' names.
original() {
    "$root/tests/oracle/build" || {
        status=$?
        # Without the width crate nothing was compiled at all: the package is missing, as was said.
        [ -r "$oracle/libunicode_width.rlib" ] || exit 77
        exit $status
    }
    stamp=$(cat "$oracle/stamp" "$here/breakers.rs" "$here/common.sh" | sha256sum)
    [ "$stamp" != "$(cat "$out/original.stamp" 2>/dev/null)" ] || return 0
    say "building the original"
    rm -f "$out/original.stamp"
    for build in cube powf; do
        rm -rf "${out:?}/$build"
        cp -R "$oracle/$build" "$out/$build"
        cat "$here/breakers.rs" >>"$out/$build/linebreak.rs"
        compile --edition 2015 --crate-type rlib --cap-lints allow --crate-name fmt_$build -o "$out/libfmt_$build.rlib" "$out/$build/fmt.rs" \
            --extern "unicode_width=$oracle/libunicode_width.rlib" --extern "uucore=$oracle/libuucore.rlib"
    done
    echo "$stamp" >"$out/original.stamp"
}

# A driver over the original's builds and an archive in out: driver NAME SOURCE ARCHIVE
driver() {
    stamp=$(cat "$out/original.stamp" "$3.stamp" "$here"/*.rs "$here/common.sh" | sha256sum)
    [ "$stamp" != "$(cat "$out/$1.stamp" 2>/dev/null)" ] || return 0
    say "building the driver"
    rm -f "$out/$1.stamp"
    compile --edition 2021 --crate-name "$1" -L "native=$(dirname "$3")" -o "$out/$1" "$2" \
        --extern "fmt_cube=$out/libfmt_cube.rlib" --extern "fmt_powf=$out/libfmt_powf.rlib"
    echo "$stamp" >"$out/$1.stamp"
}

# The first line of all figures: when and on what they were measured.
heading() {
    echo "$(date -u +%Y-%m-%d), $machine, $(getconf _NPROCESSORS_ONLN) cores, load $(cut -d' ' -f1 /proc/loadavg), $(rt version), $(rustc --version)"
}
