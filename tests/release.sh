# The release: what its archive has, that it is the same wherever it is made, and that it stands alone.
# Takes minutes.

# The release: made twice, the second time by a copy of the repository at another path, it is one archive; its program runs in an empty folder, and
# needs no library. The copy has the program's object and the libraries that are proved here, and makes the library for C, the page's engine and all else anew.
same=yes
mkdir "$work/two"
make_release || same=no
git clone -q "$top" "$work/elsewhere" && git ls-files -z | xargs -0 cp -p --parents -t "$work/elsewhere" || same=no
cp -p --parents -t "$work/elsewhere" crates/dobutsu/out/dobutsu crates/dobutsu/out/dobutsu.o || same=no
for name in $(tools/crates.py dobutsu_c | sed 's/[ :].*//'); do
    [ ! -d "crates/$name/out/rlib" ] || cp -r --parents -t "$work/elsewhere" "crates/$name/out/rlib" || same=no
done
"$work/elsewhere/tools/release" "$work/two" >"$work/err" 2>&1 || same=no
cmp -s "$archive" "$work/two/$(basename "$archive")" || same=no
rm -rf "$work/elsewhere"
note "tools/release makes one archive here and at another path: $(basename "$archive"), $(tail -1 "$work/err")" "$same"
same=yes
(cd "$release" && sha256sum --quiet -c SHA256SUMS) >"$work/out" 2>&1 || same=no
[ "$(cd "$release" && env -i ./dobutsu value "$position")" = 'win 3' ] || same=no
[ "$(cd "$release" && env -i ./dobutsu build --set 100 --nodes 4 --out chick.db | head -1)" = 'classes 2124' ] || same=no
cmp -s "$release/chick.db" testdata/one_chick_2.db || same=no
rm -f "$release/chick.db"
! ldd "$release/dobutsu" >"$work/out" 2>&1 || same=no
for name in README.md docs/{START,USE,FORMAT,RULES,CLASSES,FAULTS,PROOF,RESULTS}.md PROVED 111.db libdobutsu.pc dobutsu.h dobutsu.html libdobutsu.a \
    libdobutsu.so plain/{README.md,dobutsu_plain.c,dobutsu_plain.h,dobutsu_plain_classes.c,dobutsu_plain_classes.h} coq/{README.md,Rules.v,check} \
    dobutsu.1 completions/{dobutsu.bash,_dobutsu,dobutsu.fish}; do
    [ -s "$release/$name" ] || same=no
done
note "the program of the release, unpacked in an empty folder" "$same"
# The archive tests itself, and a byte changed in it is seen.
good=no
if tools/verify-release "$archive" >"$work/out" 2>&1; then good=yes; fi
note "tools/verify-release: $(tail -1 "$work/out")" "$good"
mkdir "$work/spoilt" && cp -r "$release" "$work/spoilt" && printf x >>"$work/spoilt/$(basename "$release")/docs/USE.md"
tar -czf "$work/spoilt.tar.gz" -C "$work/spoilt" "$(basename "$release")"
good=no
if ! tools/verify-release "$work/spoilt.tar.gz" >"$work/out" 2>&1 && grep -q 'not as SHA256SUMS says' "$work/out"; then good=yes; fi
note "tools/verify-release of a changed archive: $(tail -1 "$work/out")" "$good"
# Every link of the archive's pages leads somewhere.
good=no
if python3 tests/release_links.py "$release" >"$work/out" 2>&1; then good=yes; fi
note "the links of the archive's pages: $(head -1 "$work/out")" "$good"
# What its pages name is there, and README's commands run; a file that is missing and a command that is refused are seen.
good=no
if python3 tests/release_named.py "$release" >"$work/out" 2>&1; then good=yes; fi
note "what the archive's pages name: $(head -1 "$work/out")" "$good"
for planted in 'rm examples/ask.py' "sed -i 's,lc./.g./.../eL. - -,..l/.../L../... - -,' README.md"; do
    good=no
    rm -rf "$work/planted" && cp -r "$release" "$work/planted" && (cd "$work/planted" && eval "$planted")
    if ! python3 tests/release_named.py "$work/planted" >"$work/out" 2>&1; then good=yes; fi
    note "what the archive's pages name, after $planted: $(head -1 "$work/out")" "$good"
done
rm -rf "$work/planted"
# Each example is built by the line in its head, in the archive and in a clone with the library beside it.
mkdir "$work/clone" && cp -r examples include plain "$work/clone" && cp "$release/libdobutsu.a" "$work/clone"
for folder in "$release" "$work/clone"; do
    good=yes
    for example in examples/probe.c examples/puzzles.c examples/search.c examples/solve.c examples/verify.c examples/plain_search.c; do
        line="$(tr '\n' ' ' <"$example" | grep -o 'cc examples/[^*]* -o [a-z_]*')"
        (cd "$folder" && bash -c "$line" && rm "$(basename "$example" .c)") >"$work/out" 2>&1 || good=no
    done
    note "the examples by the lines in their heads, in $(basename "$folder"): $(head -1 "$work/out")" "$good"
done
# What libdobutsu.pc says builds an example in another folder.
if command -v pkg-config >/dev/null; then
    same=yes
    read -r -a words < <(PKG_CONFIG_PATH="$release" pkg-config --cflags --libs libdobutsu)
    cc examples/probe.c -D_POSIX_C_SOURCE=200809L "${words[@]}" -Wl,-rpath,"$release" -o "$work/by_pc" >"$work/out" 2>&1 || same=no
    [ "$(echo "$position" | "$work/by_pc" testdata/lions_alone.db)" = 'win 3' ] || same=no
    [ "$(PKG_CONFIG_PATH="$release" pkg-config --modversion libdobutsu)" = "$("$release/dobutsu" --version | sed 's/^dobutsu //')" ] || same=no
    note "libdobutsu.pc: ${words[*]}, $(tail -1 "$work/out")" "$same"
else
    echo "Not run: libdobutsu.pc, since pkg-config isn't here."
fi
