# What the scripts need of the Rattle kit: its command rt, and the archives that it builds for C.
# shellcheck shell=sh disable=SC2034
command -v rt >/dev/null || { echo "${0##*/}: the Rattle kit's command rt is not on the PATH" >&2; exit 1; }

# is_older FILE TOP: whether there is no such file, or a crate of the repository at TOP has a source, a statement or a proof that is newer. What rt keeps, in
# each crate's out/, doesn't count.
is_older() {
    [ ! -e "$1" ] || [ "$2/crates.txt" -nt "$1" ] || [ -n "$(find "$2/crates" -mindepth 2 -name out -prune -o -newer "$1" -print -quit)" ]
}

# archive_of CRATE: at the top of the repository, has a crate proved and built for C where that is to be done, and sets archive to its archive. A crate that
# other crates use is no archive: what it gives C is in the crate CRATE_c.
archive_of() {
    archive=target/staticlib/lib$1.a of=$1
    grep -q "^$1 staticlib:" crates.txt || of=$1_c
    is_older "$archive" . || return 0
    mkdir -p target/staticlib
    : >"$archive.began"
    (cd "crates/$of" && rt lib) </dev/null >"$archive.log" 2>&1 || { cat "$archive.log" >&2; exit 1; }
    # a source that changed meanwhile is newer than it
    cp "crates/$of/out/lib$of.a" "$archive.new"
    touch -r "$archive.began" "$archive.new"
    mv "$archive.new" "$archive"
}
