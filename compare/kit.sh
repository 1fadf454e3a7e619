# shellcheck shell=sh
# To be sourced, with $top set to the repository: finds the kit that `rt` belongs to, and compiles, links and runs C for
# x86-64 with nothing else.
kit_find() {
    kit_rt=$(command -v rt) || { echo "$0: no rt in PATH" >&2; exit 2; }
    kit_home=${RATTLE_HOME:-$(cd "$(dirname "$(readlink -f "$kit_rt")")/.." && pwd -P)}
    kit_tools=$kit_home/toolchain
}

# kit_compile OBJECT SOURCE [FLAG...]: no header of the machine is seen, so that it compiles alike everywhere
kit_compile() {
    kit_object=$1 kit_source=$2
    shift 2
    "$kit_tools/bin/clang" --target=x86_64-unknown-linux-gnu -nostdinc -std=c99 -O3 -fPIE -Wall -Wextra -Werror "$@" \
        -c "$kit_source" -o "$kit_object"
}

# kit_link PROGRAM OBJECT...: the linker talks even when all is well
kit_link() {
    kit_program=$1
    shift
    "$kit_home/bin/rattle-link" --target x86_64-unknown-linux-gnu --toolchain "$kit_tools" -o "$kit_program" "$@" \
        >"$kit_program.log" 2>&1 || { cat "$kit_program.log" >&2; exit 2; }
}

# kit_run PROGRAM [WORD...]: with the kit's own C library, whatever the machine has
kit_run() { "$kit_tools/lib/ld-linux-x86-64.so.2" --library-path "$kit_tools/lib" "$@"; }

# kit_archive CRATE: proves and builds a static library, which rt leaves in the crate's out/
kit_archive() { (cd "${top:?}/crates/$1" && rt lib); }

# kit_archives LOG: the libraries with the calls of include/lungevati.h, one for each engine; kit_calls is what to link. The gate
# has them made once, and says so by LUNGEVATI_ARCHIVES.
kit_archives() {
    [ "${LUNGEVATI_ARCHIVES-}" = made ] || { kit_archive api && kit_archive api_table; } >"$1" 2>&1 || { cat "$1" >&2; exit 2; }
    kit_calls="$top/crates/api/out/libapi.a $top/crates/api_table/out/libapi_table.a"
}

# kit_as ENGINE OBJECT SOURCE [FLAG...]: a checker in C under other names, in the place of the engine plain or table, or of the fast checker; or the
# writer in C in the place of the proved writer, or the turning of listings in C in the place of the proved one
kit_as() {
    case $1 in
        plain) kit_names='-Dother_check=lungevati_check -Dother_check_no_base=lungevati_check_no_base -Dother_read=lungevati_read' ;;
        table) kit_names='-Dother_check=lungevati_check_table -Dother_check_no_base=lungevati_check_table_no_base -Dother_read=unused_read' ;;
        fast) kit_names='-Dother_check=fast_check -Dother_check_no_base=fast_check_no_base -Dother_read=unused_fast_read' ;;
        writer) kit_names='-Dother_write=lungevati_write' ;;
        turn) kit_names='-Dother_turn=lungevati_turn' ;;
    esac
    shift
    # shellcheck disable=SC2086 # a list of names
    kit_compile "$@" $kit_names
}

# kit_self FOLDER [FLAG...]: the second opinion itself in the place of all that is proved
kit_self() {
    kit_folder=$1
    shift
    kit_as plain "$kit_folder/self.o" "${top:?}/compare/checker.c" "$@" || return
    kit_as table "$kit_folder/self_table.o" "$top/compare/checker.c" "$@" || return
    kit_as writer "$kit_folder/self_writer.o" "$top/compare/writer.c" "$@" || return
    kit_as turn "$kit_folder/self_turn.o" "$top/compare/turn.c" "$@" || return
    kit_calls="$kit_folder/self.o $kit_folder/self_table.o $kit_folder/self_writer.o $kit_folder/self_turn.o"
}
