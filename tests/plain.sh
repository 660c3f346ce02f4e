# The files of C for engines, plain/: they compile without a word, answer as the program does, stand hostile files and positions, and take few instructions.

# Without the kit it tests what needs none.

# ---- how it is built

strict=(-std=c99 -D_POSIX_C_SOURCE=200809L -Wall -Wextra -Wconversion -pedantic -Werror -Iplain)
sanitized=(-g -O1 '-fsanitize=address,undefined' -fno-sanitize-recover=all)

# Compiles a program of these files over it, by a compiler with words of its own: built NAME COMPILER WORD.. FILE.
built() {
    local good=no name="$1" compiler="$2"
    shift 2
    if "$compiler" "${strict[@]}" "$@" plain/*.c -o "$work/$name" >"$work/out" 2>&1 && [ ! -s "$work/out" ]; then good=yes; fi
    note "$compiler $*: $(head -1 "$work/out")" "$good"
    [ "$good" = yes ]
}

built_alone() {
    local good=no
    if printf '#include "dobutsu_plain.h"\n' | cc -x c++ -Wall -Wextra -Werror -pedantic -fsyntax-only -Iplain - >"$work/out" 2>&1 &&
        cc -x c++ -Wall -Wextra -Werror -pedantic -fsyntax-only -Iplain plain/*.c >"$work/out" 2>&1; then good=yes; fi
    note "plain/ in C++: $(head -1 "$work/out")" "$good"
    # The numbers of what stands on a square are added as the headers say to, without a warning of a later C++.
    good=no
    if printf '#include "dobutsu_plain.h"\n#include "dobutsu.h"\nint hens[] = {PLAIN_ENEMY + PLAIN_HEN, DOBUTSU_ENEMY + DOBUTSU_LION};\n' |
        cc -x c++ -std=c++20 -Wall -Wextra -Werror -pedantic -fsyntax-only -Iplain -Iinclude - >"$work/out" 2>&1 &&
        cc -x c++ -std=c++20 -Wall -Wextra -Werror -pedantic -fsyntax-only -Iplain plain/*.c >>"$work/out" 2>&1; then good=yes; fi
    note "plain/ and both headers in C++20: $(head -1 "$work/out")" "$good"
    # It calls nothing but what a compiler puts in itself, and has nothing that is written to.
    good=no
    if cc "${strict[@]}" -O2 -r -nostdlib plain/*.c -o "$work/plain.o" >"$work/out" 2>&1 &&
        ! nm -u "$work/plain.o" | grep -vE ' (memcpy|memset|memmove|__stack_chk_fail|_GLOBAL_OFFSET_TABLE_)$' >"$work/out" &&
        ! nm "$work/plain.o" | grep -E ' [bBdDcC] ' >"$work/out"; then good=yes; fi
    note "plain/ stands on nothing and keeps nothing: $(head -1 "$work/out")" "$good"
}

# ---- what it answers

# The tables of eleven sets by both rules, by the program or by the second one.
tables_of() {
    local name
    for name in {000,001,010,100,011,101,110,111,200,020,201}_{A,B}; do
        "$@" build --set "${name%_*}" --rules "${name#*_}" --out "$work/$name.db" >"$work/out" 2>&1 || return 1
    done
}

# What is wanted of positions: what the program prints, or of the whole game pure Python, and else the second program. The whole game's digest is wrong, so
# that `look` is asked, which doesn't read it.
wanted_of() {
    local word="$1" file="$2"
    case "$has_program $word $file" in
        'yes probe '*/222_*) "$program" look --each --db "$file" ;;
        yes*) "$program" "$word" --each --db "$file" ;;
        *' best '*) wanted_of moves "$file" | awk 'BEGIN { RS = ""; FS = "\n" } { print $1 }' ;;
        */222_*) python3 tests/plain.py answers "$word" "$file" ;;
        *) independent/target/release/independent "$word" --db "$file" - | sed 's/^\(E[0-9]* [A-Za-z]*\):.*/\1/' ;;
    esac
}

# Whether all builds say what is wanted of the positions in $work/asked: by an index, by bytes or a reader; values without an index, and of texts, too.
answers_alike() {
    local file="$1" way word name
    for way in probe_bytes probe_index probe_reader texts_bytes texts_reader moves_index moves_reader best_index; do
        word="${way%_*}"
        word="${word/texts/probe}"
        [ -s "$work/wanted_$word" ] || wanted_of "$word" "$file" <"$work/asked" >"$work/wanted_$word" 2>"$work/err"
        [ -s "$work/wanted_$word" ] || { echo "$word says nothing"; return 1; }
        for name in "${builds[@]}"; do
            "$work/$name" "${way%_*}" "${way#*_}" "$file" <"$work/asked" >"$work/printed" 2>&1
            cmp "$work/wanted_$word" "$work/printed" || { echo "$name $way: $(head -1 "$work/printed")"; return 1; }
        done
    done
}

# The example searches as deep as it is told, and finds what the table says.
searches() {
    local file="$1" depth
    for depth in 1 2 3; do
        "$work/search" "$depth" "$file" <"$work/asked" | cmp "$work/wanted_probe" - || return 1
    done
}

answers_of_sets() {
    local good name
    for name in {000,001,010,100,011,101,110,111,200,020,201}_{A,B}; do
        good=no
        rm -f "$work"/wanted_*
        if python3 tests/independent.py positions "$work/$name.db" 400 >"$work/asked" && answers_alike "$work/$name.db" >"$work/out" 2>&1 &&
            searches "$work/$name.db" >"$work/out" 2>&1; then good=yes; fi
        note "plain/, and a search over it, on 400 positions of $name: $(tail -1 "$work/out")" "$good"
    done
}

answers_of_files() {
    local good name
    for name in lions_alone one_chick lions_alone_2 one_chick_2; do
        good=no
        sed -n 's/ = .*//p' "testdata/${name%_2}.txt" >"$work/asked"
        if "$work/ask_cc" probe index "testdata/$name.db" <"$work/asked" >"$work/printed" 2>&1 &&
            sed -n 's/.* = //p' "testdata/${name%_2}.txt" | cmp - "$work/printed" >"$work/out" 2>&1; then good=yes; fi
        note "plain/ finds the values of testdata/$name.db: $(tail -1 "$work/out")" "$good"
        good=no
        python3 tests/plain.py texts 2000 >"$work/asked"
        if [ "$has_program" = yes ]; then
            "$program" probe --each --db "testdata/$name.db" <"$work/asked" >"$work/wanted" 2>"$work/err"
        else
            python3 tests/plain.py answers probe "testdata/$name.db" <"$work/asked" >"$work/wanted"
        fi
        if [ "$(sort -u "$work/wanted" | grep -c '^E')" = 6 ] && "$work/ask_sanitized" texts index "testdata/$name.db" <"$work/asked" 2>&1 |
            cmp "$work/wanted" - >"$work/out" 2>&1; then good=yes; fi
        note "plain/ answers 2,000 texts by testdata/$name.db, most of them refused: $(tail -1 "$work/out")" "$good"
    done
}

# The texts of all moves, as pure Python lists them; any other numbers have none.
texts_of_moves() {
    local good=no
    python3 tests/plain.py moves | sort >"$work/wanted"
    if [ "$(grep -c . "$work/wanted")" = 356 ] && "$work/ask_sanitized" moves | sort | cmp "$work/wanted" - >"$work/out" 2>&1; then good=yes; fi
    note "plain/ writes and reads the texts of all moves and no other: $(tail -1 "$work/out")" "$good"
}

answers_of_the_whole_game() {
    local good rules
    for rules in A B; do
        good=no
        rm -f "$work"/wanted_*
        if python3 tests/plain.py sparse "$rules" "$work/222_$rules.db" 240 >"$work/asked" &&
            cp "$work/asked" "$work/asked_$rules" && answers_alike "$work/222_$rules.db" >"$work/out" 2>&1; then good=yes; fi
        note "plain/ finds the classes of 240 positions of 222 by rules $rules, and of their moves: $(tail -1 "$work/out")" "$good"
    done
}

# The program of plain/README.md, as a reader would compile it.
program_of_the_page() {
    local good=no
    sed -n '/^```c$/,/^```$/{//!p}' plain/README.md >"$work/ask.c"
    if built page_asks cc -O2 "$work/ask.c" && [ "$("$work/page_asks" '.l./..c/.../.L. - -' <testdata/one_chick_2.db)" = 'win 7' ] &&
        [ "$("$work/page_asks" x <testdata/one_chick_2.db)" = 'E1 Shape' ]; then good=yes; fi
    note "the program of plain/README.md: $(tail -1 "$work/out")" "$good"
}

# The same on a machine whose numbers have the highest byte first.
answers_with_the_highest_byte_first() {
    local good=no
    if ! command -v s390x-linux-gnu-gcc >/dev/null || ! command -v qemu-s390x >/dev/null; then
        echo "Not run: plain/ with the highest byte first, since s390x-linux-gnu-gcc and qemu-s390x aren't here."
    elif built ask_high s390x-linux-gnu-gcc -O2 -static tests/plain_ask.c; then
        if qemu-s390x "$work/ask_high" moves reader "$work/222_B.db" <"$work/asked" 2>&1 | cmp "$work/wanted_moves" - >"$work/out" 2>&1; then good=yes; fi
        note "plain/ with the highest byte first: $(tail -1 "$work/out")" "$good"
    fi
}

# ---- what it refuses, and what it takes

stands_hostility() {
    local good name build
    local texts=("$position" "$far_chick" '.../.../h../L.l - -' 'gle/.c./.C./ELG - -' '.l./.../.../.L. CGG ce')
    for name in "$lions" "$lions_2" testdata/one_chick_2.db "$work/110_B.db"; do
        [ -s "$name" ] || continue
        for build in "${hostile[@]}"; do
            good=no
            if "$work/$build" "$name" "${texts[@]}" >"$work/out" 2>&1; then good=yes; fi
            note "plain/ stands hostile files, texts, positions and moves, by $build and $(basename "$name"): $(tail -1 "$work/out")" "$good"
        done
        good=no
        if python3 tests/plain.py spoilt "$work/ask_cc" "$name" "$work" >"$work/out" 2>&1; then good=yes; fi
        note "plain/ refuses what pure Python does, by $(basename "$name"): $(tail -1 "$work/out")" "$good"
    done
}

# The instructions of a call of plain_probe with an index, counted for each: the most that any position takes.
most_instructions() {
    rm -rf "$work/counts" && mkdir "$work/counts"
    valgrind --tool=callgrind --callgrind-out-file="$work/counts/of" --toggle-collect=plain_probe --dump-after=plain_probe \
        "$work/$1" probe index "$2" <"$work/asked" >"$work/out" 2>"$work/err"
    cat "$work"/counts/of.* | sed -n 's/^summary: //p' | sort -n >"$work/summed"
    [ "$(wc -l <"$work/summed")" = "$(grep -c . "$work/asked")" ] && tail -1 "$work/summed"
}

takes_few_instructions() {
    local good rules most name
    for rules in A B; do
        { python3 tests/plain.py costliest; head -100 "$work/asked_$rules"; } >"$work/asked"
        for name in "${fast[@]}"; do
            good=no
            most="$(most_instructions "$name" "$work/222_$rules.db")"
            if [ "${most:-0}" -gt 100 ] && [ "$most" -le 3000 ]; then good=yes; fi
            note "a probe of 222 by rules $rules takes 3,000 instructions at most, of $name ${most:-none}" "$good"
        done
    done
}

fast=(ask_cc)
builds=(ask_cc ask_sanitized)
hostile=(hostile)
if built ask_cc cc -O2 tests/plain_ask.c && built ask_sanitized cc "${sanitized[@]}" tests/plain_ask.c &&
    built hostile cc "${sanitized[@]}" tests/plain_hostile.c && built search cc -O2 examples/plain_search.c; then
    if ! command -v clang >/dev/null; then
        echo "Not run: plain/ by clang, which isn't here."
    elif built ask_clang clang -O2 tests/plain_ask.c && built hostile_clang clang "${sanitized[@]}" tests/plain_hostile.c; then
        builds+=(ask_clang)
        fast+=(ask_clang)
        hostile+=(hostile_clang)
    fi
    if echo 'int main(void) { return 0; }' | cc -m32 -x c - -o "$work/narrow" 2>"$work/err"; then
        if built ask_32 cc -m32 -O2 -D_FILE_OFFSET_BITS=64 tests/plain_ask.c; then builds+=(ask_32); fi
    else
        echo "Not run: plain/ in 32 bit, for which this compiler has no library."
    fi
    built_alone
    program_of_the_page
    texts_of_moves
    answers_of_files
    if [ "$has_program" = yes ]; then
        if tables_of "$program"; then answers_of_sets; else note "tables by the program: $(tail -1 "$work/out")" no; fi
    elif needs cargo; then
        (cd independent && cargo build --release --locked --offline --quiet) >"$work/out" 2>&1
        if tables_of independent/target/release/independent; then answers_of_sets; else note "tables by the second program: $(tail -1 "$work/out")" no; fi
    fi
    answers_of_the_whole_game
    answers_with_the_highest_byte_first
    stands_hostility
    if command -v valgrind >/dev/null; then
        takes_few_instructions
    else
        echo "Not run: the instructions of plain/, since valgrind isn't here."
    fi
fi
