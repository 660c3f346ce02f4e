# The page: its scenes, its values by both rules, mouse, keys and fingers, and that nothing leaves it, in headless Chromium; less of it in Firefox.
# Takes minutes.

# Counts tests that can't be run here, and says why.
left_out=0
leave_out() {
    left_out=$((left_out + $1))
    echo "page: $1 left out: $2"
}

# Adds the counts that so many runs of tests have printed, and their failures: `count_runs NUMBER PRINTED ERRORS WORDS`.
count_runs() {
    local line='^[0-9]+ passed, [0-9]+ failed$' good bad
    grep -E '^(FAILED|LEFT OUT): ' "$2"
    while read -r good _ bad _; do
        passed=$((passed + good))
        failed=$((failed + bad))
    done < <(grep -E "$line" "$2")
    [ "$(grep -cE "$line" "$2")" = "$1" ] || note "$4: it gave no counts, $(tail -1 "$3")" no
}
add_counts() {
    "$@" >"$work/told" 2>"$work/err"
    count_runs 1 "$work/told" "$work/err" "$*"
}

# The page is one file, whatever is built before and wherever it lies.
mkdir "$work/elsewhere"
cp -r page "$work/elsewhere"
same=yes
for words in '--script -' -; do
    python3 page/build.py $words "$work/dobutsu.html" >"$work/out" 2>&1 || same=no
    python3 "$work/elsewhere/page/build.py" $words "$work/again.html" >>"$work/out" 2>&1 || same=no
    cmp -s "$work/dobutsu.html" "$work/again.html" || same=no
    [ "$(wc -c <"$work/dobutsu.html")" -lt 300000 ] || same=no
done
grep -q '^window.DobutsuWasm = ' "$work/dobutsu.html" || same=no
python3 page/build.py --script - "$work/dobutsu.html" >>"$work/out" 2>&1 || same=no
rm -rf "$work/elsewhere"
note "page/build.py makes one file of less than 300 KB here and at another path, with the proved engine and with --script: $(tail -1 "$work/out")" "$same"

# The module that stands in the repository was made of today's sources.
if tools/page-module --check >"$work/out" 2>&1; then good=yes; else good=no; fi
note "tools/page-module --check: $(tail -1 "$work/out")" "$good"

# A page with a file in it.
same=yes
python3 page/build.py --with testdata/one_chick_2.db - "$work/with.html" >"$work/out" 2>&1 || same=no
grep -q '^window.DobutsuFile = {"name": "one_chick_2.db"' "$work/with.html" || same=no
note "page/build.py --with puts a file into the page: $(tail -1 "$work/out")" "$same"

# The list of wrong edits fits the sources; tools/page-mutants tries them.
if tools/page-mutants --check >"$work/out" 2>&1; then good=yes; else good=no; fi
note "tools/page-mutants --check: $(tail -1 "$work/out")" "$good"

# The engine in JavaScript against tools/read_db.py, and games as texts and files, in Node where it is there.
if command -v node >/dev/null; then
    for words in 'core.test.js 1500' gametext.test.js; do
        # shellcheck disable=SC2086 # a test and its number
        if node page/test/$words >"$work/out" 2>&1; then good=yes; else good=no; fi
        note "page/test/${words% *}: $(tail -1 "$work/out")" "$good"
    done
else
    leave_out 2 'the engine in JavaScript against tools/read_db.py, and games as texts and files, since Node is not there'
fi

# The page in Firefox: the parts that it runs, and a quarter of the scenes with either engine.
in_firefox() {
    python3 page/test/page_test.py "$work/dobutsu.html" "$program" --firefox --jobs 2
    for page in dobutsu proved; do
        python3 page/test/scenes.py --page "$work/$page.html" --firefox --states "$work/states" --jobs 2
    done
}

# The page in browsers, with the script engine and with the proved one, whose page is made beside the scenes. All scenes in Chromium with the script engine, a
# quarter of them with the proved one. Firefox goes its way beside Chromium.
if needs chromium wasm-opt; then
    mkdir "$work/files"
    export DOBUTSU_FILES="$work/files"
    tools/page "$work/proved.html" >"$work/made" 2>&1 &
    maker=$!
    add_counts python3 page/test/scenes.py --page "$work/dobutsu.html" --states "$work/states"
    good=yes
    wait "$maker" || good=no
    grep -q '^window.DobutsuWasm = ' "$work/proved.html" || good=no
    note "tools/page makes the page with the proved engine: $(tail -1 "$work/made")" "$good"
    if tools/page-module >"$work/out" 2>&1; then good=yes; else good=no; fi
    note "the module that is made here: $(tail -1 "$work/out")" "$good"
    if command -v firefox-esr firefox >/dev/null; then
        in_firefox >"$work/firefox_told" 2>"$work/firefox_err" &
        firefox=$!
    else
        leave_out 3 'the page in Firefox with either engine, since it is not there (apt-get install firefox-esr)'
        firefox=
    fi
    add_counts python3 page/test/page_test.py "$work/dobutsu.html" "$program"
    add_counts python3 page/test/planted.py "$program"
    add_counts python3 page/test/scenes.py --page "$work/proved.html" elsewhere
    add_counts python3 page/test/page_test.py "$work/proved.html" "$program" told opening certificates certificates/whole_B layout/letters
    if [ -n "$firefox" ]; then
        wait "$firefox"
        count_runs 3 "$work/firefox_told" "$work/firefox_err" 'the page in Firefox'
    fi
    if command -v node >/dev/null; then
        if node page/test/wasm.test.js page/out/dobutsu_web.wasm 500 >"$work/out" 2>&1; then good=yes; else good=no; fi
        note "page/test/wasm.test.js: $(tail -1 "$work/out")" "$good"
        if node page/test/told.test.js page/out/dobutsu_web.wasm "$program" 2000 >"$work/out" 2>&1; then good=yes; else good=no; fi
        note "page/test/told.test.js: $(tail -1 "$work/out")" "$good"
    else
        leave_out 2 'the proved engine against the script, and against the program on 2,000 positions of 111 by each of the rules, since Node is not there'
    fi
fi
if [ "$left_out" -gt 0 ]; then echo "page: $left_out of 18 tests left out"; fi
