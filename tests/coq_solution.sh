# The solution of the game as theorems of Coq: the certificates of testdata, by coq/check and coq/verify.
# Takes minutes.
# Without the kit it tests what needs none.

# A theorem by rules A and by rules B, with the axioms it rests on, in at most five minutes of a processor and 1.5 GB.
solved() {
    local rules="$1" good=no used
    if python3 tests/coq_used.py coq/check "testdata/222_$rules.cert" "$work/made" >"$work/out" 2>"$work/err" &&
        grep -qx "     : lost $rules 78 start" "$work/out" && grep -qx 'Closed under the global context' "$work/out"; then good=yes; fi
    used="$(tail -1 "$work/err")"
    note "coq/check testdata/222_$rules.cert: $(tail -3 "$work/out" | tr '\n' ' ')$used" "$good"
    read -r seconds megabytes <<<"${used:-999 9999}"
    note "coq/check of rules $rules takes $seconds s and $megabytes MB" "$([ "$seconds" -le 300 ] && [ "$megabytes" -le 1500 ] && echo yes || echo no)"
}

# The same claims by the checker as a program.
verified() {
    local good=no
    if coq/verify "testdata/$1.cert" "$work/made" >"$work/out" 2>&1 && [ "$(head -1 "$work/out")" = "$2" ]; then good=yes; fi
    note "coq/verify testdata/$1.cert: $(head -1 "$work/out")" "$good"
}

if needs coqc ocamlopt; then
    solved A
    solved B
    start='gle/.c./.C./ELG - -'
    verified 222_A "$start loss within 78"
    verified 222_B "$start loss within 78 by rules B"
    verified 222_A_first_moves "$start loss within 78"
fi
