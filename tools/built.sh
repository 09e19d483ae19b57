# A program of rust/, built where something has changed since the last time: read by the tools that run one.

# Leaves the program's path in $program. The library is proved and built, and the program compiled, unless PROGRAMS_BUILT is set.
built() { # PACKAGE WHO
    root=$(dirname "$here")
    program=$root/rust/target/release/$1
    if [ -z "${PROGRAMS_BUILT:-}" ] && ! (fresh); then
        echo "$2: proving the library and building the program; the first time takes minutes" >&2
        (build "$1") >&2 || stop "$2 cannot be built"
    fi
}

# Whether the program is newer than all that it is made from; a tool's first lines are its help.
fresh() {
    cd "$root" && . tools/newer.sh && up_to_date "$program" docs/RULES.md rust tools
}

build() { # PACKAGE
    "$here/hostlib" "$root/target/host" && cd "$root/rust" &&
        DESK_LIB_DIR=$root/target/host cargo build --quiet --release --offline --locked --package "$1" --target-dir target &&
        touch "$program"
}
