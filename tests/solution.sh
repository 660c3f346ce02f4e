# The solution of the game: the certificates of testdata prove by both rules that the second player wins, and give the winning moves.

start='gle/.c./.C./ELG - -'
# The positions after each of the four moves of the starting layout.
answers=('g.e/.cl/.C./ELG - -' 'g.e/lc./.C./ELG - -' '.le/gc./.C./ELG - -' 'gle/.../.c./ELG - c')
declare -A said=([A]='' [B]=' by rules B') entries=([A]=176436 [B]=148657)
for rules in A B; do
    certificate="testdata/222_$rules.cert"
    expect 0 "$start loss within 78${said[$rules]}" '' verify --cert "$certificate"
    expect 0 "position $start
claim loss within 78
rules $rules
entries ${entries[$rules]}" '' info "$certificate"
    expect 0 "{\"position\":\"$start\",\"claim\":\"loss within 78\",\"rules\":\"$rules\",\"entries\":${entries[$rules]}}" '' info --json "$certificate"
    if [ "$(wc -c <"$certificate")" -lt 700000 ]; then good=yes; else good=no; fi
    note "$certificate has less than 700 kB" "$good"
    expect 0 'loss within 78' '' reply --cert "$certificate" "$start"
    for answer in "${answers[@]}"; do
        expect 0 '~^[LEGCH]\([a-c][1-4][-x]\|[*]\)[a-c][1-4]+\? win within [0-9]*$' '' reply --cert "$certificate" "$answer"
    done
    expect 1 '' 'dobutsu: E7 OtherSet' reply --cert "$certificate" "$position"
    expect 1 '' 'dobutsu: E2 Letter' reply --cert "$certificate" 'glx/.c./.C./ELG - -'
done

# The certificate of the first moves: behind each the second player wins within the plies of docs/results_first_moves.csv, less one.
certificate=testdata/222_A_first_moves.cert
expect 0 "$start loss within 78" '' verify --cert "$certificate"
if [ "$(wc -c <"$certificate")" -le 444000 ]; then good=yes; else good=no; fi
note "$certificate has at most 444 kB" "$good"
mapfile -t told < <(sed -n 's/^A,\([^,]*\),loss \([0-9]*\),.*/\1 \2/p' docs/results_first_moves.csv)
moves=(Lb1-a2 Lb1-c2 Gc1-c2 Cb2xb3)
for number in "${!moves[@]}"; do
    note "the plies behind ${moves[number]}: ${told[number]}" "$([ "${told[number]% *}" = "${moves[number]}" ] && echo yes || echo no)"
    expect 0 "~ win within $((${told[number]#* } - 1))\$" '' reply --cert "$certificate" "${answers[number]}"
done
