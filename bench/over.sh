# shellcheck shell=bash
# For benches: builds a program over crates of this repository in a folder of its own. Source it at the top of the
# repository.

# Adds the crate and those below it to `below`, as crates.txt has them. A name without a line there is the toolchain's.
add_below() {
    local name line
    for name in "$@"; do
        case " $below " in *" $name "*) continue ;; esac
        line=$(grep -E "^${name}[ :]" crates.txt) || continue
        below+=" $name"
        # shellcheck disable=SC2086
        add_below ${line#*:}
    done
}

# Builds the program of a bench in the folder over these crates, and prints the path of what was built. The file of the
# program is no `.rt`, since the gate reads each file of that name and this one belongs to no crate. Crates whose proved
# library is there are not proved again.
#
#   build_over FOLDER NAME PROGRAM CRATE..
build_over() {
    local work=$1 name=$2 program=$3 below="" crate part
    shift 3
    add_below "$@"
    git -C "$work" init -q
    cp HANDLES "$work/"
    for crate in $below; do
        mkdir -p "$work/crates/$crate/out"
        for part in src specs proofs out/rlib; do
            if [ -d "crates/$crate/$part" ]; then cp -r "crates/$crate/$part" "$work/crates/$crate/$part"; fi
        done
        grep -E "^${crate}[ :]" crates.txt
    done > "$work/crates.txt"
    echo "$name: $*" >> "$work/crates.txt"
    mkdir -p "$work/crates/$name/src"
    cp "$program" "$work/crates/$name/src/main.rt"
    (cd "$work/crates/$name" && rt run > "$work/log" 2>&1) || { tail -n 40 "$work/log" >&2; return 1; }
    echo "$work/crates/$name/out/$name"
}
