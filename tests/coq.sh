# The rules and the checker in Coq, coq/: they agree with all else on positions and on spoilt certificates, and the commands say what is proved and what isn't.
# Quick where there is coqc.
# Without the kit it tests what needs none.

made="$work/made"

# Whether a command of coq/ ends with that status, and prints texts as `expect` takes them: `answers STATUS OUT ERR COMMAND WORD..`.
answers() {
    local status=0 wanted="$1" out="$2" err="$3" good=no
    shift 3
    "$@" >"$work/out" 2>"$work/err" || status=$?
    if [ "$status" = "$wanted" ] && holds "$work/out" "$out" && holds "$work/err" "$err"; then good=yes; fi
    note "$*: status $status, wanted $wanted$(unlike 'standard output' "$work/out" "$out")$(unlike 'standard error' "$work/err" "$err")" "$good"
}

# Whether a command without the commands of Coq says so in a sentence.
coqless() {
    local status=0 good=no
    mkdir -p "$work/commands"
    for command in bash cat cut sed head dirname realpath sha256sum mktemp rm; do ln -sf "$(command -v "$command")" "$work/commands"; done
    # Python itself, where a script stands for it.
    ln -sf "$(python3 -c 'import sys; print(sys.executable)')" "$work/commands/python3"
    PATH="$work/commands" "$@" >"$work/out" 2>"$work/err" || status=$?
    if [ "$status" = 69 ] && [ ! -s "$work/out" ] && [ "$(wc -l <"$work/err")" = 1 ] &&
        grep -q '^dobutsu: this needs Coq.*apt-get install coq' "$work/err"; then good=yes; fi
    note "$*, without coqc: status $status, $(head -c 200 "$work/err")" "$good"
}

test_coq() {
    local good words count before
    before="$(ls -A coq)"
    # What is proved, and nothing is taken without a proof; the one file to read is short.
    good=no
    if ! grep -nwE 'Axiom|Axioms|Parameter|Parameters|Conjecture|Admitted|admit|Abort|native_compute|Declare ML' coq/*.v >"$work/out"; then good=yes; fi
    note "what is supposed in coq/: $(head -1 "$work/out")" "$good"
    count="$(wc -l <coq/Rules.v)"
    good=no
    if [ "$count" -le 170 ] && grep -q "\b$count lines" coq/README.md && grep -q "Rules.v.*\b$count lines" docs/PROOF.md; then good=yes; fi
    note "coq/Rules.v has $count lines, as the pages say" "$good"
    answers 0 '' '' python3 tests/coq_quotes.py

    # One small certificate by both commands, from nothing and in a folder that keeps what was made.
    text='.c./l../.../.L. - -'
    answers 0 "~^By rules A, from $text: whatever the side to move plays, it loses within 8 plies, and it can hold out so long\\.\$" '' \
        coq/check testdata/one_chick.cert
    answers 0 '~^     : has_value A root (Loss 8)$' '' coq/check testdata/one_chick.cert "$made"
    answers 0 '~^Closed under the global context$' '' coq/check testdata/one_chick.cert "$made"
    answers 0 "~^$text loss 8\$" '' coq/check testdata/one_chick.cert "$made"
    answers 0 "~^$text loss 8\$" '' coq/verify testdata/one_chick.cert
    answers 0 '~ Its axioms: Closed under the global context\.$' '' coq/verify testdata/one_chick.cert "$made"
    note "the commands write nothing beside themselves" "$([ "$before" = "$(ls -A coq)" ] && echo yes || echo no)"

    # Faults.
    for command in coq/check coq/verify; do
        answers 1 '' 'dobutsu: E16 Magic' "$command" testdata/one_chick.db "$made"
        answers 3 '' 'dobutsu: E24 Io' "$command" "$work/nowhere" "$made"
        answers 3 '' 'dobutsu: E24 Io' "$command" "$work" "$made"
        answers 2 '' "~$command CERTIFICATE" "$command"
        answers 2 '' "~$command CERTIFICATE" "$command" --help
        coqless "$command" testdata/one_chick.cert
    done
    # More entries than Coq itself takes: it is said at once.
    python3 -c 'import sys; sys.stdout.buffer.write(b"DOBUCERT" + bytes(12) + (1000001).to_bytes(4, "little") + bytes(2000000))' >"$work/large.cert"
    answers 2 '' '~^dobutsu: 1000001 entries are more than Coq itself takes' coq/check "$work/large.cert" "$made"
    # A claim that isn't so: Coq refuses, and the entry is named with its position.
    python3 -c '
import sys
sys.path[:0] = ["python", "tools"]
from certificates import certificate_bytes
from dobutsu import pure
data = open("testdata/one_chick.cert", "rb").read()
it = pure.Certificate(data)
number = max(it.lost, key=it.lost.get)
open(sys.argv[1], "wb").write(certificate_bytes(data[:20], {**it.lost, number: it.lost[number] - 2}, it.held))
print("dobutsu: E30 Unsupported class", number)
print(" ", pure.write_position(it.position_at(number)))' "$work/spoilt.cert" >"$work/wanted"
    answers 1 '' "dobutsu: Coq refuses; nothing is proved. Pure Python looks for the reason
$(cat "$work/wanted")" coq/check "$work/spoilt.cert" "$made"
    answers 1 '' "$(head -1 "$work/wanted")" coq/verify "$work/spoilt.cert" "$made"

    # The rules of Rules.v, as computed by Coq, against answers from outside, pure Python and the second program.
    words=("$made/Positions.v")
    if command -v cargo >/dev/null && (cd independent && cargo build --release --locked --offline --quiet) >"$work/out" 2>&1; then
        words+=("$top/independent/target/release/independent" "$work")
    fi
    good=no
    if count="$(python3 tests/coq_positions.py "${words[@]}")" && (cd "$made" && coqc -Q . Dobutsu Positions.v) >"$work/out" 2>&1 &&
        [ "$(sed -n 1p "$work/out")" = "     = (${count%% *}, 0)" ] && [ "${count%% *}" -gt 9000 ]; then good=yes; fi
    note "the positions that Rules.v is compared on, $count: $(head -1 "$work/out")" "$good"

    # Small certificates of each claim by both rules, and spoilt ones.
    mkdir "$work/small"
    good=no
    words=("$work/small" "$made")
    if [ "$has_program" = yes ]; then words+=("$program"); fi
    if python3 tests/coq_make.py "$work/small" >"$work/out" 2>&1 && python3 tests/coq_spoilt.py "${words[@]}" >"$work/out" 2>&1; then good=yes; fi
    note "spoilt certificates: $(tail -2 "$work/out" | tr '\n' ' ')" "$good"
}

if needs coqc ocamlopt; then test_coq; fi
