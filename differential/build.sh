# Read by the programs of this folder, at the top of the checkout.

# The folder that the program is built in, of which nothing is left.
built=$(mktemp -d) || exit 2
trap 'rm -rf "$built"' EXIT
trap 'exit 2' HUP INT TERM

# What the programs need beside the checkout.
need_all()
{
    command -v rt >/dev/null || { echo "no rt: it comes with the Rattle kit" >&2; return 2; }
    command -v valgrind >/dev/null || { echo "no valgrind: install valgrind" >&2; return 2; }
    printf '#include <openssl/evp.h>\n#include <valgrind/memcheck.h>\n' >"$built/needed.c"
    ${CC:-cc} -fsyntax-only "$built/needed.c" || { echo "install a C compiler, libssl-dev and valgrind" >&2; return 2; }
}

build_library()
{
    need_all || return
    (cd crates/capi && rt lib) >"$built/log" 2>&1 || { cat "$built/log"; return 2; }
}

# build HEADERS REFERENCE [MORE FOR THE COMPILER]..
# Builds the comparing program with the catsvomi.h of a folder, and with a reference. Valgrind may not read DWARF 5.
build()
{
    headers=$1 reference=$2
    shift 2
    ${CC:-cc} -std=c99 -E -P "$headers/catsvomi.h" | awk -f differential/declared.awk | sort >"$built/declared"
    awk -f differential/calls.awk "$built/declared" >"$built/calls.h" || return 2
    ${CC:-cc} -std=c99 -O2 -gdwarf-4 -Wall -Wextra -pedantic -Idifferential -I"$headers" -I"$built" \
        -o "$built/differential" differential/differential.c differential/trial.c "$reference" "$@" \
        crates/capi/out/libcapi.a -lcrypto
}

# Whether the header that was built with declares what crate capi exports (<). What it declares otherwise is printed (>).
same_exports()
{
    awk -f differential/exported.awk crates/capi/src/*.rt | sort >"$built/exported"
    diff "$built/exported" "$built/declared"
}

under_valgrind()
{
    valgrind -q --leak-check=full --error-exitcode=9 "$built/differential" "$@"
}
