# Sourced by the scripts: builds the static library, if the repository has the crate cabi_c, the program that writes a list, if it
# has the crate program_c, and programs of a Rust package.
#
# tests/staticlib says how the archives, target/native/libcabi.a and libprogram.a, are made.

repository="$(cd "$(dirname "${BASH_SOURCE[0]}")/../.." && pwd)"
export CARGO_TARGET_DIR="$repository/target/rust"

# Whether an archive is there and no file of the repository's crates is newer, but for what the checks leave in their out/.
is_fresh() {
    [ -f "$1" ] && [ -z "$(find "$repository/crates" "$repository/crates.txt" -name out -prune -o -type f -newer "$1" -print -quit)" ]
}

build_library() {
    [ -d "$repository/crates/cabi_c" ] || return 0
    is_fresh "$repository/target/native/libcabi.a" || "$repository/tests/staticlib" >/dev/null
}

# The C functions through which a program reads and writes: they stand in archives of the kit.
kit_archives() {
    local kit
    kit=$(dirname "$(dirname "$(readlink -f "$(command -v rt)")")")
    echo "$kit/c/libos_c.a"
    echo "$kit/c/liblibc_c.a"
}

# WRITE_LIST tells tests/rust/src/program.rs where the program is.
build_program() {
    [ -d "$repository/crates/program_c" ] || return 0
    local archive="$repository/target/native/libprogram.a" source="$repository/programs/write_list.c" kit
    WRITE_LIST="$repository/target/native/write_list"
    export WRITE_LIST
    is_fresh "$archive" || "$repository/tests/staticlib" program >/dev/null
    if [ ! "$WRITE_LIST" -nt "$archive" ] || [ ! "$WRITE_LIST" -nt "$source" ]; then
        mapfile -t kit < <(kit_archives)
        cc -std=c99 -O2 -Wall -Wextra -Werror "$source" "$archive" "${kit[@]}" -o "$WRITE_LIST"
    fi
}

# build_rust FOLDER PROGRAM..
build_rust() {
    local folder="$1" words=() program
    shift
    for program in "$@"; do
        words+=(--bin "$program")
    done
    cargo build --quiet --release --offline --locked --manifest-path "$folder/Cargo.toml" "${words[@]}" >&2
}

# build_caller NAME: builds the C program that calls the library without a C library, and leaves the command that runs it in the array NAME.
build_caller() {
    local -n run="$1"
    local archive="$repository/target/native/libcabi.a" caller="$CARGO_TARGET_DIR/caller"
    if [ ! -f "$archive" ]; then
        echo "there is no $archive" >&2
        exit 2
    fi
    mkdir -p "$CARGO_TARGET_DIR"
    cc -O2 -ffreestanding -fno-builtin -fno-stack-protector -Wall -Werror -static -nostdlib "$repository/tests/rust/archive/caller.c" \
        -Wl,--whole-archive "$archive" -Wl,--no-whole-archive -o "$caller"
    run=("$caller")
}
