# Sourced by the scripts, in the repository's folder: where something that a script needs is missing, one line on
# standard error says what to do, and the exit status is 2. A relative STET_SRC or ARCHIVE is from that folder.

missing() { # WHAT TO DO
    echo "$0: $1" >&2
    exit 2
}

need_command() { # COMMAND WHAT TO INSTALL
    command -v "$1" >/dev/null || missing "there is no command $1: install $2"
}

# The archive of the crate board, named by ARCHIVE; sets `archive`.
need_archive() {
    archive=${ARCHIVE:-target/staticlib/libboard.a}
    [ -f "$archive" ] || missing "there is no $archive: tools/build.sh makes it, or name the archive by ARCHIVE"
}

# stet's Rust, named by STET_SRC; sets `stet`.
need_stet() {
    local what="check out the repository AndyCappDev/stet at commit a02da5b1ae, and set STET_SRC to its folder crates/stet-fonts/src"
    local file
    [ -n "${STET_SRC:-}" ] || missing "STET_SRC is not set: $what"
    stet=$STET_SRC
    for file in charstring.rs geometry.rs type1_to_type2.rs; do
        [ -f "$stet/$file" ] || missing "STET_SRC has no $file: $what"
    done
}

need_rust() {
    need_command rustc "a Rust compiler that has the edition 2024"
}

need_c() {
    need_command "${CC:-cc}" "a C compiler, or name one by CC"
}
