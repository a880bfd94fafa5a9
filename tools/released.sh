# The functions of the launcher `./stmdesk` for the program and the library of release/. `here` is the folder of the repository, `say` and
# `stop` print. They set `sum`, the SHA-256 of the one that is looked at: the program, unless `of_library` was called.
kind=program base=stmdesk packed=release/stmdesk.xz used=run

of_library() {
    kind=library base=libstmdesk.so packed=release/libstmdesk.so.xz used=loaded
}

# What release/stmdesk.txt has under this name.
fact() {
    sed -n "s/^$1: //p" "$here/release/stmdesk.txt"
}

# Whether release/ was made from these sources. If not, `why` says why.
fits() {
    why="there is no release/stmdesk.txt"
    [ -r "$here/release/stmdesk.txt" ] || return 1
    why="the sum of the sources can't be computed"
    sources=$("$here/tools/source_sum") || return 1
    why="release/ was made from other sources than these"
    [ "$sources" = "$(fact sources)" ] && sum=$(fact executable)
}

# Whether release/ has a library that was made from these sources. If not, `why` says why.
fits_library() {
    why="there is no release/stmdesk.txt"
    [ -r "$here/release/stmdesk.txt" ] || return 1
    why="release/ has no library"
    sum=$(fact library)
    [ -n "$sum" ] || return 1
    why="the sum of the sources can't be computed"
    sources=$("$here/tools/source_sum" --library) || return 1
    why="the library of release/ was made from other sources than these"
    [ "$sources" = "$(fact library_sources)" ]
}

need_unpacker() {
    command -v xz >/dev/null || python3 -c 'import lzma' 2>/dev/null ||
        stop "to unpack $packed, the command 'xz', or 'python3' with its module lzma, must be on the PATH"
}

# Prints what is in the packed file, whatever options and limits the environment has for xz.
unpacked() (
    unset XZ_DEFAULTS XZ_OPT
    if command -v xz >/dev/null; then
        xz -dc "$here/$packed"
    else
        python3 -c 'import lzma, shutil, sys; shutil.copyfileobj(lzma.open(sys.argv[1]), sys.stdout.buffer)' "$here/$packed"
    fi
)

# What sha256sum prints of what is in the packed file, and of something else if that file is damaged.
packed_sum() {
    { unpacked || echo damaged; } | sha256sum
} 2>/dev/null

has_sum() {
    [ "$(sha256sum <"$1")" = "$sum  -" ]
}

# Unpacks it into a folder, to which nobody else may write, and checks it; it gets its name when it is whole. Sets `program` to its path.
unpack_into() {
    (umask go-w && mkdir -p "$1") && part=$(mktemp "$1/part.XXXXXX") || return 1
    if unpacked >"$part" && has_sum "$part" && chmod 755 "$part" && [ ! -d "$1/$base" ] && mv -f "$part" "$1/$base"; then
        program=$1/$base
    else
        rm -f "$part"
        return 1
    fi
} 2>/dev/null

# Sets `program` to the program of release/, which is unpacked once and checked each time, and to nothing if it can't be unpacked below
# out/. Fails if release/ doesn't fit, and ends if it isn't what it says that it is.
released() {
    fits && unpack_once
}

# The same for the library.
released_library() {
    of_library
    fits_library && unpack_once
}

unpack_once() {
    why="release/ is for Linux on x86-64"
    [ "$(uname -sm)" = "Linux x86_64" ] || return 1
    program=$here/out/release/$sum/$base
    [ ! -d "$program" ] || stop "$program is a folder, where the $kind would be unpacked: remove it"
    if [ -e "$program" ]; then
        [ -x "$program" ] && has_sum "$program" && return
        say "$program was changed after it was unpacked: it isn't $used, and is unpacked again"
    fi
    need_unpacker
    [ "$(packed_sum)" = "$sum  -" ] ||
        stop "$packed ISN'T the $kind that release/stmdesk.txt names (SHA-256 $sum), so it isn't $used"
    unpack_into "$here/out/release/$sum" || program=''
}

# Unpacks the program into a folder of its own, which a process in the background removes after the program has ended: it waits until
# nobody holds the pipe `end` open for writing.
unpack_privately() {
    place=$(mktemp -d) && unpack_into "$place" && mkfifo "$place/end" && exec 8<>"$place/end" 9<"$place/end" || {
        [ -z "$place" ] || rm -rf "$place"
        stop "release/stmdesk.xz can be unpacked neither below $here/out nor into a temporary folder"
    }
    status=0
    "$program" --version </dev/null >/dev/null 2>&1 8>&- 9>&- || status=$?
    if [ "$status" -eq 126 ]; then # as if it is mounted with noexec
        rm -rf "$place"
        stop "no program can be run from ${TMPDIR:-/tmp}, nor unpacked below $here/out: set TMPDIR to a folder from which programs can be run"
    fi
    (
        trap '' HUP INT QUIT TERM
        exec 8>&-
        read -r _ <&9
        rm -rf "$place"
    ) </dev/null >/dev/null 2>&1 &
    exec 9<&-
}
