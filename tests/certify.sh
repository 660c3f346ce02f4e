# Certificates: what is made of a table verifies and says the value that the table gives, and what is refused.
# Takes minutes.

# 300 of them, of three sets by both rules: wins, losses and draws, each within its plies and exact. A reader in Python has the positions.
good=no
tables=()
made=yes
for rules in A B; do
    for set in 100 110 111; do
        "$program" build --rules "$rules" --set "$set" --out "$work/${set}_$rules.db" >"$work/out" 2>&1 || made=no
        tables+=("$work/${set}_$rules.db")
    done
done
note "tables of three sets by both rules" "$made"
if python3 tests/certify_ask.py "$program" "$work" "${tables[@]}" >"$work/out" 2>&1 && grep -q '^300 ' "$work/out"; then good=yes; fi
note "300 certificates verify and say the table's value: $(tail -1 "$work/out")" "$good"

# One that is made by hand: the lions alone, where a step beside the other lion wins in 3.
expect 0 "$position win within 3
lost 1
held 0" '' certify --db "$lions_2" --out "$work/one.cert" "$position"
expect 0 "$position win within 3" '' verify --cert "$work/one.cert"
expect 0 "$position win within 3" '' verify --cert "$work/one.cert" --progress
expect 0 'La2-a3 win within 3' '' reply --cert "$work/one.cert" "$position"
expect 0 '~ win 3$' '' certify --db "$lions_2" --out "$work/exact.cert" --exact "$position"
expect 0 "$position win 3" '' verify --cert "$work/exact.cert"
expect 1 '' 'dobutsu: E41 Unlisted' reply --cert "$work/one.cert" "$long"

# What is refused leaves the file that was there.
cp "$work/one.cert" "$work/kept.cert"
expect 1 '' 'dobutsu: E39 TooMany more than 0 entries' certify --db "$lions_2" --out "$work/kept.cert" --most 0 "$position"
expect 1 '' 'dobutsu: E7 OtherSet' certify --db "$chick" --out "$work/kept.cert" "$position"
expect 1 '' 'dobutsu: E26 FarChick' certify --db "$work/100_B.db" --out "$work/kept.cert" "$far_chick"
expect 1 '' 'dobutsu: E2 Letter' certify --db "$lions_2" --out "$work/kept.cert" 'x.l/.../L../... - -'
fails_at "$work/none.db" "$gone" certify --db "$work/none.db" --out "$work/kept.cert" "$position"
fails_at "$work/none/x.cert" "$gone" certify --db "$lions_2" --out "$work/none/x.cert" "$position"
# that can't be made, which is told before the work begins: the table isn't asked for the position
fails_at "$work/none/x.cert" "$gone" certify --db "$chick" --out "$work/none/x.cert" "$position"
if cmp -s "$work/one.cert" "$work/kept.cert" && [ ! -e "$work/kept.cert.part" ]; then good=yes; else good=no; fi
note "a certificate that isn't made leaves the one that was there" "$good"
fails_at "$work/none.cert" "$gone" verify --cert "$work/none.cert"
expect 1 '' 'dobutsu: E16 Magic' verify --cert "$lions_2"
expect 1 '' 'dobutsu: E15 Truncated' verify --cert /dev/null
expect 1 '' 'dobutsu: E16 Magic' reply --cert "$lions_2" "$position"

# A table whose values aren't right gives no certificate: the record of the class, with the digest that then belongs there.
python3 tests/certify_wrong_table.py "$lions_2" "$work/wrong.db" "$position" 2
expect 1 '' 'dobutsu: E31 Claim' certify --db "$work/wrong.db" --out "$work/kept.cert" "$position"
# One whose values are late, a win in 301 by a loss in 300, claims what is so, but more plies than a file says.
python3 tests/certify_wrong_table.py "$lions_2" "$work/late.db" "$position" 302 '.../.../..l/L.. - -' 301
expect 3 '' 'dobutsu: E40 Unfit' certify --db "$work/late.db" --out "$work/kept.cert" "$position"
