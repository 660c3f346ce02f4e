# The program before it is proved: ./dobutsu --unproved gives the proved program's answers and exit status, and says that nothing was proved.
# Takes minutes.

told='dobutsu: nothing is proved of this run, which compiles the program first, in a minute or two; without --unproved it is proved'

# Whether the words, on that standard input, get the answer, the errors and the status of the proved program, behind the line that nothing is proved.
alike() {
    local status=0 wanted=0 good=no given="$1" wrong=''
    shift
    printf "$given" | "$program" "$@" >"$work/first.out" 2>"$work/first.err" || wanted=$?
    printf "$given" | ./dobutsu --unproved "$@" >"$work/out" 2>"$work/err" || status=$?
    { echo "$told"; cat "$work/first.err"; } >"$work/wanted.err"
    if [ "$status" = "$wanted" ] && cmp -s "$work/first.out" "$work/out" && cmp -s "$work/wanted.err" "$work/err"; then good=yes; fi
    [ "$status" = "$wanted" ] || wrong=", wanted $wanted"
    wrong+="$(unlike 'standard output' "$work/out" "$(cat "$work/first.out")")$(unlike 'standard error' "$work/err" "$(cat "$work/wanted.err")")"
    note "./dobutsu --unproved $(printf '%q ' "$@"): status $status$wrong" "$good"
}
# Whether the words are refused without a run, for that reason.
not_run() {
    local status=0 good=no fault="$1"
    shift
    ./dobutsu --unproved "$@" >"$work/out" 2>"$work/err" </dev/null || status=$?
    if [ "$status" = 70 ] && [ ! -s "$work/out" ] && grep -qF -e "$fault" "$work/err" && [ "$(wc -l <"$work/err")" = 1 ]; then good=yes; fi
    note "./dobutsu --unproved $(printf '%q ' "$@"): status $status, $(head -1 "$work/err"), wanted 70, $fault" "$good"
}

# An answer, with a file by a path from another folder's root, in a line of which one is refused. Each run compiles the program, so there are few.
cp testdata/one_chick_2.db "$work/a = b.db"
alike '.../.../.../LCl - -\nx\n' look --each --db="$work/a = b.db"
# Files that aren't there, whatever they are for.
alike '' probe --db "$work/none.db" "$position"
# What takes longer than it may.
good=no
status=0
RT_SECONDS=1 ./dobutsu --unproved reach 'gle/.c./.C./ELG - -' >"$work/out" 2>"$work/err" </dev/null || status=$?
if [ "$status" = 70 ] && [ ! -s "$work/out" ] && grep -q 'no answer within 1 s' "$work/err"; then good=yes; fi
note "./dobutsu --unproved of what takes more than a second: status $status, $(tail -1 "$work/err")" "$good"
# Files that would be written, and what is no plain file.
not_run '--out names a file to be written' build --set 000 --out "$work/new.db"
not_run '--out names a file to be written' certify --db "$lions_2" "$position" --out="$work/new.cert"
not_run '--out names a file to be written' migrate --db "$lions" --out "$work/new.db"
not_run '--svg names a file to be written' show --svg "$work/new.svg" "$position"
not_run 'plain files alone' check --db /dev/null
not_run 'plain files alone' verify --cert="$work"
good=no
if [ -z "$(find "$work" -name 'new.*')" ]; then good=yes; fi
note "nothing was written" "$good"
