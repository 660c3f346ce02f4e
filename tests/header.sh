# The header of the library against the library's code: numbers, structs and exports.

# What the code says, as a program in C that is only compiled; a header with one thing changed doesn't hold.
header_holds() {
    tools/check-header "$1" >"$work/header.c" 2>"$work/err" &&
        cc -std=c11 -Wall -Wextra -Werror -pedantic -fsyntax-only -I"$1/include" "$work/header.c" 2>>"$work/err"
}
same=yes
header_holds . || same=no
note "include/dobutsu.h says what the library's code says: $(head -1 "$work/err")" "$same"
mkdir -p "$work/changed/include" "$work/changed/crates"
ln -s "$top/crates/dobutsu_c" "$work/changed/crates/dobutsu_c"
for change in 's/DOBUTSU_INDEX = 29/DOBUTSU_INDEX = 28/' 's/DOBUTSU_HEN = 3/DOBUTSU_HEN = 4/' 's/DOBUTSU_WIN = 1/DOBUTSU_WIN = 3/' \
    's/DOBUTSU_FROM_HAND = 12/DOBUTSU_FROM_HAND = 13/' 's/    DOBUTSU_MAGIC = 16,.*//' 's/    uint32_t catches;//' 's/uint64_t \*broken/uint32_t *broken/' \
    's/^uint64_t dobutsu_index_words.*//'; do
    same=yes
    sed "$change" include/dobutsu.h >"$work/changed/include/dobutsu.h"
    ! cmp -s include/dobutsu.h "$work/changed/include/dobutsu.h" || same=no
    ! header_holds "$work/changed" || same=no
    note "a header changed by $change doesn't hold" "$same"
done

# The program of docs/USE.md, "From C", compiles.
good=no
sed -n '/^```c$/,/^```$/{//!p}' docs/USE.md >"$work/ask.c"
if [ -s "$work/ask.c" ] && cc -std=c99 -O2 -Wall -Wextra -Werror -pedantic -Iinclude -c "$work/ask.c" -o "$work/ask.o" >"$work/out" 2>&1; then good=yes; fi
note "the program in C of docs/USE.md: $(head -1 "$work/out")" "$good"

# The faults' numbers and names are one table, that of docs/FAULTS.md: the library's, the header's, Python's, the page's, and each in a text.
good=yes
tools/check-faults >"$work/out" || good=no
note "the faults are called the same everywhere: $(head -1 "$work/out")" "$good"
for change in 'python/dobutsu/library.py|s/28: "NoMove", //' \
    'python/dobutsu/library.py|s/23: "Memory"/23: "Full"/' 'include/dobutsu.h|s/DOBUTSU_INDEX = 29/DOBUTSU_INDEX = 39/' \
    'plain/dobutsu_plain.h|s/PLAIN_HAND = 3/PLAIN_HAND = 4/' 'plain/dobutsu_plain.c|s/E24 Io/E24 Device/' \
    'page/wasm.js|s/17: "SetByte"/17: "SetText"/' 'page/core.js|s/E15 Truncated/E16 Truncated/' 'docs/FAULTS.md|s/`E37 EntryOrder`/`E37 Order`/'; do
    IFS='|' read -r file edit <<<"$change"
    rm -rf "$work/named" && mkdir -p "$work/named"
    cp -r docs include page plain python "$work/named" && mkdir "$work/named/crates"
    for crate in crates/*; do mkdir "$work/named/$crate" && cp -r "$crate"/{src,specs} "$work/named/$crate" 2>>"$work/err"; done
    sed "$edit" "$file" >"$work/named/$file"
    good=yes
    ! tools/check-faults "$work/named" >"$work/out" || good=no
    note "a name changed by $edit in $file is seen: $(head -1 "$work/out")" "$good"
done
