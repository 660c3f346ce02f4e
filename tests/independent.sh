# The second program, independent/, written from the pages alone: it builds, and agrees with the proved one on files, positions, certificates and spoilt files.
# Quick where there is cargo.
# Without the kit it tests what needs none.

second="$top/independent/target/release/independent"
lone='.l./..c/.../.L. - -'

# ---- what needs no kit

build_second() {
    (cd independent && cargo build --release --locked --offline --quiet) >"$work/out" 2>&1 || {
        note "cargo build: $(grep -m 1 -v '^$' "$work/out")" no
        return 1
    }
    note "cargo build" yes
}

# Its own tests run beside all else.
begin_tests() {
    (cd independent && cargo test --locked --offline --quiet) >"$work/tested" 2>&1 &
    tests=$!
}
end_tests() {
    local good=no
    if wait "$tests"; then good=yes; fi
    note "cargo test: $(grep -m 1 -e '^test result' -e '^error' "$work/tested")" "$good"
}

second_alone() {
    local good=no name by
    if python3 tests/independent.py published >"$work/out" 2>&1; then good=yes; fi
    note "independent/published.txt has the numbers and digests of docs/results.csv: $(tail -1 "$work/out")" "$good"
    good=no
    sed -n '2,$s/^\([^ ]*\) \([^ ]*\) \(.*\) [^ ]*$/\2 \1 \3/p' independent/published.txt | sort >"$work/counts"
    if sort testdata/counts.txt | cmp - "$work/counts" >"$work/out" 2>&1; then good=yes; fi
    note "independent/published.txt has the numbers of testdata/counts.txt: $(tail -1 "$work/out")" "$good"
    for name in lions_alone one_chick; do
        good=no
        sed -n 's/ = .*//p' "testdata/$name.txt" | "$second" probe --db "testdata/$name.db" - >"$work/second.txt" 2>"$work/err"
        if sed -n 's/.* = //p' "testdata/$name.txt" | cmp - "$work/second.txt" >"$work/out" 2>&1; then good=yes; fi
        note "the second program finds the values of testdata/$name.txt: $(tail -1 "$work/out")" "$good"
    done
    for name in A A_first_moves B; do
        good=no
        by="$([ "$name" != B ] || echo ' by rules B')"
        if [ "$("$second" verify --cert "testdata/222_$name.cert" 2>&1)" = "gle/.c./.C./ELG - - loss within 78$by" ]; then good=yes; fi
        note "the second program verifies testdata/222_$name.cert" "$good"
    done
    good=no
    printf '%s\n' 'position gle/.c./.C./ELG - -' 'claim loss within 78' 'rules B' 'entries 148657' >"$work/wanted"
    if "$second" info testdata/222_B.cert 2>&1 | cmp "$work/wanted" - >"$work/out" 2>&1; then good=yes; fi
    note "the second program says what the header of testdata/222_B.cert says: $(tail -1 "$work/out")" "$good"
    good=no
    python3 tests/independent.py ends testdata/one_chick_2.db >"$work/wanted" 2>&1
    (cd independent && cargo run --release --locked --offline --quiet --example ends -- ../testdata/one_chick_2.db 2) >"$work/out" 2>&1
    if cmp -s "$work/wanted" "$work/out"; then good=yes; fi
    note "the example ends counts testdata/one_chick_2.db as pure Python does: $(tail -1 "$work/out")" "$good"
    good=no
    (cd independent && cargo run --release --locked --offline --quiet --example reached -- ../testdata/one_chick_2.db "$lone" 2 'loss 8') >"$work/told" 2>&1
    if python3 tests/independent.py ways testdata/one_chick_2.db "$lone" 'loss 8' <"$work/told" >"$work/out" 2>&1; then good=yes; fi
    note "the example reached tells ways to the losses in 8 of testdata/one_chick_2.db: $(tail -1 "$work/out")" "$good"
}

# ---- what asks both

# The values and moves of 2,000 positions of a file, by the one and by the other, who have the same faults by number and name.
ask_both() {
    local file="$1" word
    python3 tests/independent.py positions "$file" 2000 >"$work/asked" || return 1
    for word in probe moves; do
        "$program" "$word" --db "$file" --each <"$work/asked" >"$work/first.txt" 2>"$work/err"
        "$second" "$word" --db "$file" - <"$work/asked" 2>"$work/err" | sed 's/^\(E[0-9]* [A-Za-z]*\):.*/\1/' >"$work/second.txt"
        [ -s "$work/first.txt" ] || { echo "$word --each says nothing of $file"; return 1; }
        cmp "$work/first.txt" "$work/second.txt" || return 1
    done
}

# The table of a set by both: the same bytes by 1 node, by 4 and by the second program, as published; each checks what the other built.
same_table() {
    local set="$1" rules="$2" file="$work/$1_$2"
    "$program" build --set "$set" --rules "$rules" --nodes 1 --out "$file.db" &&
        "$program" build --set "$set" --rules "$rules" --nodes 4 --out "$file.4.db" && cmp "$file.db" "$file.4.db" &&
        "$second" build --set "$set" --rules "$rules" --out "$file.second.db" && cmp "$file.db" "$file.second.db" &&
        python3 tests/independent.py published "$set" "$rules" "$file.db" &&
        [ "$("$program" check --db "$file.second.db")" = consistent ] && [ "$("$second" check --db "$file.db")" = consistent ] &&
        [ "$("$program" info "$file.db")" = "$("$second" info "$file.db")" ] &&
        [ "$("$program" stats --db "$file.db")" = "$("$second" stats --db "$file.db")" ]
}

same_tables() {
    local set rules good
    for set in 000 001 010 100 011 101 110 111 200 201; do
        for rules in A B; do
            good=no
            if same_table "$set" "$rules" >"$work/out" 2>"$work/err"; then good=yes; fi
            note "the table of $set by rules $rules is the second program's, byte for byte: $(tail -1 "$work/out") $(tail -1 "$work/err")" "$good"
            good=no
            if ask_both "$work/${set}_$rules.db" >"$work/out" 2>&1; then good=yes; fi
            note "both give 2,000 positions of $set by rules $rules the same values and moves: $(tail -1 "$work/out")" "$good"
        done
    done
    # With these the published digests of the sets without chicks are compared by rules B too, which docs/results.csv leaves out.
    for set in 002 012 020 021 022; do
        good=no
        if "$program" build --set "$set" --rules B --out "$work/without.db" >"$work/out" 2>&1 &&
            python3 tests/independent.py published "$set" B "$work/without.db" >"$work/out" 2>&1; then good=yes; fi
        note "the table of $set by rules B has the published digest: $(tail -1 "$work/out")" "$good"
    done
}

# Twenty certificates made here, and the two of the whole game: both say the same of each.
same_certificates() {
    local good words file text count=0
    for words in 111_A 111_B 201_B 100_A; do
        for text in $(python3 tests/independent.py deepest "$work/$words.db" 5 | tr ' ' _); do
            file="$work/made_$count.cert"
            good=no
            if "$program" certify --db "$work/$words.db" --out "$file" $([ $((count % 2)) = 0 ] || echo --exact) "${text//_/ }" >"$work/out" 2>&1 &&
                "$program" verify --cert "$file" >"$work/first.txt" 2>&1 && "$second" verify --cert "$file" >"$work/second.txt" 2>&1 &&
                cmp "$work/first.txt" "$work/second.txt" >"$work/out" &&
                [ "$("$program" info "$file")" = "$("$second" info "$file")" ]; then good=yes; fi
            note "both verify a certificate of ${text//_/ } by $words: $(tail -1 "$work/out")" "$good"
            count=$((count + 1))
        done
    done
    for words in 222_A 222_B; do
        "$program" verify --cert "testdata/$words.cert" >"$work/first.txt" 2>&1
        "$second" verify --cert "testdata/$words.cert" >"$work/second.txt" 2>&1
        good=no
        if [ -s "$work/first.txt" ] && cmp -s "$work/first.txt" "$work/second.txt"; then good=yes; fi
        note "both verify testdata/$words.cert: $(head -1 "$work/first.txt"), $(head -1 "$work/second.txt")" "$good"
    done
    note "twenty certificates were made: $count" "$([ "$count" = 20 ] && echo yes || echo no)"
}

# What a game can reach from the deepest positions of a table, by value: the example `reached` finds what `reach` does.
same_reached() {
    local good words text
    for words in 111_A 201_B; do
        while read -r text; do
            good=no
            "$program" reach --values --db "$work/$words.db" "$text" </dev/null 2>"$work/err" |
                sed -n '/^\(win\|loss\) [0-9]* [0-9]*$/p; /^draw [1-9]/p' | sort >"$work/first.txt"
            (cd independent && cargo run --release --locked --offline --quiet --example reached -- "$work/$words.db" "$text" 2) </dev/null 2>"$work/err" |
                sed 's/,/ /' | sort >"$work/second.txt"
            if [ -s "$work/first.txt" ] && cmp "$work/first.txt" "$work/second.txt" >"$work/out"; then good=yes; fi
            note "both reach as many classes of $words from $text: $(tail -1 "$work/out") $(tail -1 "$work/err")" "$good"
        done < <(python3 tests/independent.py deepest "$work/$words.db" 3)
    done
}

# Spoilt files: both take each or refuse it, by the same fault, of an entry or a class by the same number.
same_faults() {
    local good kind
    mkdir "$work/spoilt"
    for kind in db cert; do
        good=no
        if python3 tests/independent.py spoilt "$kind" "$program" "$second" "$work/spoilt" >"$work/out" 2>&1; then good=yes; fi
        note "both judge spoilt files of the kind .$kind alike: $(tail -1 "$work/out")" "$good"
    done
}

if needs cargo && build_second; then
    begin_tests
    second_alone
    if [ "$has_program" = yes ]; then
        same_tables
        same_certificates
        same_reached
        same_faults
    fi
    end_tests
fi
