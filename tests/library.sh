# The library for other programs, from the release: in C, in C++ and in Python.
# Takes minutes.

# Three programs in C over the archive, and one in Python over the shared object. `examples/probe.c`
# prints what `probe` does of these positions and of those of testdata, in each profile, `examples/explore.py` what `moves` does too, and
# `examples/hostile.c` sees that no call touches memory that isn't its own, and sees each planted library that does. The header is one of C++ too.
make_release || note "the release of which the library is a part" no
compile() { cc -std=c99 -D_POSIX_C_SOURCE=200809L -Wall -Wextra -Werror -pedantic "$@" -I"$release" "$release/libdobutsu.a" >"$work/out" 2>&1; }
same=yes
compile -O2 examples/probe.c -o "$work/probe_c" || same=no
note "examples/probe.c is built over the library: $(head -1 "$work/out")" "$same"
same=yes
cc -O2 examples/probe.c -D_POSIX_C_SOURCE=200809L -I"$release" -L"$release" -ldobutsu -Wl,-rpath,"$release" -o "$work/probe_so" >"$work/out" 2>&1 || same=no
[ "$(echo "$position" | "$work/probe_so" testdata/lions_alone.db)" = 'win 3' ] || same=no
echo '#include "dobutsu.h"' | cc -x c++ -fsyntax-only -Wall -Wextra -Werror -I"$release" - >"$work/out" 2>&1 || same=no
note "the shared object, and the header in C++: $(head -1 "$work/out")" "$same"
# The program of docs/USE.md, "From C", says the values of testdata.
same=yes
sed -n '/^```c$/,/^```$/{//!p}' docs/USE.md >"$work/ask.c"
compile -O2 "$work/ask.c" -o "$work/ask_c" || same=no
[ "$("$work/ask_c" '.l./..c/.../.L. - -' <testdata/one_chick_2.db)" = 'win 7' ] && [ "$("$work/ask_c" x <testdata/one_chick_2.db)" = E1 ] || same=no
note "the program in C of docs/USE.md: $(head -1 "$work/out")" "$same"
# The header's version is the library's, and the program's.
same=yes
compile tests/library_version.c -o "$work/version" || same=no
"$work/version" >"$work/out" 2>&1 && [ "$(cat "$work/out")" = "$("$program" --version)" ] || same=no
note "the version of dobutsu.h is that of the library and the program: $(head -1 "$work/out")" "$same"
# A fault's text is the one that the program prints, and that of docs/FAULTS.md.
same=yes
compile tests/library_faults.c -o "$work/faults" || same=no
"$work/faults" >"$work/out" 2>&1 || same=no
[ "$(grep -c . "$work/out")" = 31 ] && [ "$(grep -v -e '^E28 NoMove$' -e '^E29 Index$' "$work/out" | cut -d' ' -f1,2)" = \
    "$(sed -n 's/^| `\(E[0-9]* [A-Za-z]*\)[` ].*/\1/p' docs/FAULTS.md | grep -vxE 'E(8|9|1[0-4]|22|39|4[01]) .*' | sort -t E -k 2 -n -u)" ] || same=no
note "dobutsu_fault_text says what docs/FAULTS.md does: $(tail -1 "$work/out")" "$same"
same=yes
compile -O2 examples/hostile.c -o "$work/hostile" || same=no
for name in lions_alone one_chick lions_alone_2; do "$work/hostile" "testdata/$name.db" "$position" >"$work/out" 2>&1 || same=no; done
note "examples/hostile.c over cut and changed files and indexes: $(tail -1 "$work/out")" "$same"
# Libraries that read past a file, past an index, before a text, past a position, and that write past the moves, past the answers, past the numbers of an order,
# and into the file.
same=yes
wraps=--wrap=dobutsu_probe,--wrap=dobutsu_probe_by,--wrap=dobutsu_moves,--wrap=dobutsu_probe_many,--wrap=dobutsu_write,--wrap=dobutsu_shuffled
for planted in READ_PAST_FILE READ_PAST_INDEX READ_BEFORE_TEXT WRITE_PAST_MOVES WRITE_FILE WRITE_PAST_ANSWERS READ_PAST_POSITION WRITE_PAST_NUMBERS; do
    compile -O2 -DPLANTED="$planted" -Wl,"$wraps" examples/hostile.c tests/planted.c -o "$work/planted" || same=no
    for name in lions_alone lions_alone_2; do
        status=0
        "$work/planted" "testdata/$name.db" "$position" >"$work/out" 2>&1 || status=$?
        [ "$status" = 20 ] || same=no
    done
done
note "examples/hostile.c finds each planted library: status $status, $(tail -1 "$work/out")" "$same"

# Whether the program and the example print the same of each position of a file, values and faults.
answer_alike() {
    local file="$1" asked="$2" text
    while IFS= read -r text; do
        "$program" probe --db "$file" "$text" 2>&1 | sed 's/^dobutsu: \(E[0-9]*\) .*/\1/'
    done <"$asked" >"$work/printed"
    [ -s "$asked" ] && "$work/probe_c" "$file" <"$asked" >"$work/printed_c" 2>&1 && cmp -s "$work/printed" "$work/printed_c"
}
same=yes
sed 's/ = .*//' testdata/one_chick.txt testdata/lions_alone.txt >"$work/texts"
printf '%s\n' 'x' '' 'C.l/.../.../L.. - -' 'L../.../.../..l - -' '..l/.../L../... -' >>"$work/texts"
for name in {A,B}_{000,100,010,001,200}; do
    "$program" build --rules "${name%_*}" --set "${name#*_}" --nodes 3 --out "$work/$name.db" >"$work/out" 2>&1 || same=no
    python3 tests/library_spread.py "$work/$name.db" >"$work/$name.asked" || same=no
    answer_alike "$work/$name.db" "$work/$name.asked" || same=no
    answer_alike "$work/$name.db" "$work/texts" || same=no
done
note "examples/probe.c prints what probe does, by files of five sets and both profiles" "$same"
same=yes
for name in A_000 A_100 A_200 B_100; do
    mapfile -t texts <"$work/$name.asked"
    for text in "${texts[@]}" 'x' '..l/.../.../L.. C -'; do
        said="$("$program" probe --db "$work/$name.db" "$text" 2>&1 | sed 's/^dobutsu: \(E[0-9]*\) .*/\1/')"
        printf '%s\n' "$said"
        case "$said" in E*) continue ;; esac
        "$program" moves --db "$work/$name.db" "$text" | sed '/^end$/d'
    done >"$work/printed"
    python3 examples/explore.py "$release/libdobutsu.so" "$work/$name.db" "${texts[@]}" 'x' '..l/.../.../L.. C -' >"$work/printed_c" 2>&1
    cmp -s "$work/printed" "$work/printed_c" || same=no
done
note "examples/explore.py prints what probe and moves do" "$same"
# The best move is the first that `moves` prints, and what follows is what `line` prints.
same=yes
compile -O2 examples/solve.c -o "$work/solve" || same=no
for name in {A,B}_{100,111}; do
    [ -s "$work/$name.db" ] || "$program" build --rules "${name%_*}" --set "${name#*_}" --nodes 3 --out "$work/$name.db" >"$work/out" 2>&1 || same=no
    python3 tests/library_spread.py "$work/$name.db" >"$work/$name.asked" || same=no
    while IFS= read -r text; do
        line="$("$program" line --db "$work/$name.db" "$text")"
        if [ "$line" = end ]; then
            echo end
        else
            echo "$("$program" moves --db "$work/$name.db" "$text" | head -1): $line"
        fi
    done <"$work/$name.asked" >"$work/printed"
    "$work/solve" "$work/$name.db" <"$work/$name.asked" >"$work/printed_c" 2>&1 || same=no
    [ -s "$work/printed" ] && cmp -s "$work/printed" "$work/printed_c" || same=no
done
note "examples/solve.c prints what moves and line do, by files of two sets and both profiles" "$same"
# The puzzles of a seed are those that the program prints, and so is what is said where there are none.
same=yes
compile -O2 examples/puzzles.c -o "$work/puzzles" || same=no
for name in {A,B}_{100,111}; do
    for seed in 0 1 40 18446744073709551615; do
        for plies_count in 3_7 5_3 9_5000 11_0; do
            "$program" puzzles --db "$work/$name.db" --plies "${plies_count%_*}" --count "${plies_count#*_}" --random "$seed" >"$work/printed" || same=no
            "$work/puzzles" "$work/$name.db" "${plies_count%_*}" "${plies_count#*_}" "$seed" >"$work/printed_c" 2>&1 || same=no
            [ -s "$work/printed" ] && cmp -s "$work/printed" "$work/printed_c" || same=no
        done
    done
done
note "examples/puzzles.c prints what puzzles --random does, by files of two sets and both profiles: $(head -1 "$work/printed_c")" "$same"
# The search finds what the file says, however deep it looks itself; and without a file each value that is forced within as many plies.
same=yes
compile -O2 examples/search.c -o "$work/search" || same=no
for name in {A,B}_100 A_111; do
    while IFS= read -r text; do "$program" probe --db "$work/$name.db" "$text"; done <"$work/$name.asked" >"$work/printed"
    for depth in 1 2 3; do
        "$work/search" "$depth" "$work/$name.db" <"$work/$name.asked" >"$work/printed_c" 2>&1 || same=no
        [ -s "$work/printed" ] && cmp -s "$work/printed" "$work/printed_c" || same=no
    done
    case "$name" in B*) continue ;; esac
    sed -E '/^(win|loss) [0-5]$/!s/.*/unknown/' "$work/printed" >"$work/forced"
    "$work/search" 5 <"$work/$name.asked" >"$work/printed_c" 2>&1 || same=no
    grep -q '^loss [1-4]$' "$work/forced" && cmp -s "$work/forced" "$work/printed_c" || same=no
done
printf '%s\n' 'x' '..l/.../L../...' | "$work/search" 1 >"$work/printed_c" && [ "$(cat "$work/printed_c")" = $'E1\nE1' ] || same=no
note "examples/search.c finds what probe prints, by files and without" "$same"
# An index of another family is refused before any class is counted: 200 times in seconds, where counting once takes some hundredths of one.
same=yes
python3 tests/library_index.py "$release/libdobutsu.so" "$work/long.db" >"$work/out" 2>&1 || same=no
rm -f "$work/long.db"
note "an index of another family, or that lacks its end, is refused at once: $(tail -1 "$work/out")" "$same"
# A file whose digest is right, and the value of whose class 1 isn't: the library names the class that the program does.
same=yes
python3 tests/library_wrong_value.py "$release/libdobutsu.so" testdata/lions_alone_2.db "$work/wrong.db" >"$work/printed_c" 2>&1 || same=no
"$program" check --db "$work/wrong.db" >"$work/printed" 2>&1
cmp -s "$work/printed" "$work/printed_c" || same=no
note "dobutsu_check answers what check does of a wrong value: $(cat "$work/printed_c")" "$same"
# A certificate, and that with each byte changed, with the digest that then belongs there: the library says what the reader in Python does.
same=yes
compile -O2 examples/verify.c -o "$work/verify_c" || same=no
[ "$("$work/verify_c" testdata/one_chick.cert)" = '100 A class 686 loss 8' ] || same=no
python3 tests/library_certificates.py "$work/verify_c" testdata/one_chick.cert "$work" >"$work/out" 2>&1 || same=no
note "dobutsu_verify answers what pure Python does: $(tail -1 "$work/out")" "$same"
# The move that a certificate gives each position of its set: what the reader in Python finds. And the faults, of the text, of the bytes, of the set, of an
# entry that isn't shown, in this order.
same=yes
python3 tests/library_replies.py "$release/libdobutsu.so" testdata/one_chick.cert >"$work/out" 2>&1 || same=no
note "dobutsu_reply gives the moves that pure Python finds: $(tail -1 "$work/out")" "$same"
