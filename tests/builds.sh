# Builds: their files by any number of nodes and by both rules, and what a build that fails or is killed leaves.
# Takes minutes.

# Builds: the files of testdata in the second format again, by any number of nodes and over what was there; and then they are asked. Other files stay.
built="$work/built.db"
other="$work/a b.db"
of_lions=$'classes 54\nwin 38\nloss 12\ndraw 4'
of_chick=$'classes 2124\nwin 1553\nloss 527\ndraw 44'
expect 0 '~^classes 1116$' '' build --set=001 --nodes=16 --out="$other"
expect 0 '~^classes 1116$' '' build --set 001 --nodes 1 --out "$built"
for case in '100|1|one_chick_2' '000|2|lions_alone_2' '000|1|lions_alone_2' '100|2|one_chick_2' '000|3|lions_alone_2' \
    '100|3|one_chick_2' '000|16|lions_alone_2' '100||one_chick_2' '000||lions_alone_2' '000|+02|lions_alone_2'; do
    IFS='|' read -r set nodes name <<<"$case"
    if [ "$set" = 000 ]; then lines="$of_lions"; else lines="$of_chick"; fi
    given=(build --set "$set" --out "$built")
    [ -z "$nodes" ] || given+=(--nodes "$nodes") # else as many as there are processors
    expect 0 "$lines" '' "${given[@]}"
    if cmp -s "$built" "testdata/$name.db"; then good=yes; else good=no; fi
    note "the file of $set by ${nodes:-no number of} nodes is testdata/$name.db" "$good"
done
expect 0 'consistent' '' check --db "$other"
expect 0 "$of_lions" '' build --nodes=+016 --out "$other" --set 000
expect 0 'consistent' '' check --db "$other"
expect 0 'consistent' '' check --db "$built"
expect 0 'win 3' '' probe --db "$built" "$position"
expect 0 'La2-a3 lc4-b4 La3xb4' '' line --db "$built" "$position"
# watched, a build says on standard error what memory it takes, and all else is the same; of a check of so few classes no line is due
expect 0 "$of_lions" '~^some 1 MB of memory for 54 classes$' build --set 000 --progress --nodes 2 --out "$other"
if cmp -s "$other" "$built"; then good=yes; else good=no; fi
note "the file of a watched build" "$good"
expect 0 '~^classes 765360$' '~^some 7 MB of memory for 765360 classes$' build --set 111 --nodes 2 --out "$other" --progress
# by one node, whose list of counts has a second segment: 1.58 million moves
expect 0 '~^classes 765360$' '' build --set 111 --nodes 1 --out "$work/alone.db"
if cmp -s "$other" "$work/alone.db"; then good=yes; else good=no; fi
note "the file of 111 by one node is that by two" "$good"
rm -f "$work/alone.db"
expect 0 'consistent' '' check --progress --db "$built"
expect 1 '' 'dobutsu: E25 SetText' build --set 003 --nodes 2 --out "$other" --progress
fails_at "$work/none.db" "$gone" check --progress --db "$work/none.db"
# Lines on how far a build is take each other's place exactly where standard error is a terminal, whatever standard output is. It is stopped for a
# second, so that a line is due.
watched() { # REDIRECTION: the build, on a terminal of which one stream goes to a file
    local build="\"$program\" build --set 111 --nodes 1 --progress --out \"$other\" $1"
    script -qec "$build & sleep 0.1; kill -STOP \$!; sleep 1.2; kill -CONT \$!; wait" /dev/null >"$work/shown" </dev/null
}
if command -v script >"$work/out"; then
    watched "2>\"$work/err\""
    if grep -q ' s, [0-9]* %' "$work/err" && ! grep -q $'\r' "$work/err"; then good=yes; else good=no; fi
    note "lines in a file, where standard output is a terminal" "$good"
    watched ">\"$work/out\""
    if grep -q $'\r[0-9]* s, [0-9]* %.*\033\\[K' "$work/shown" && grep -q 'classes 765360' "$work/out"; then good=yes; else good=no; fi
    note "lines in place on a terminal, where standard output is a file" "$good"
fi
# So does a check where it is watched, and nothing where it isn't. It is stopped once it has worked for half a second of a processor's time, some fifth
# of what a check of 112 takes, so that it is neither at its start nor at its end, on a busy machine as on a fast one.
works() { # PID: waits until it has worked for that long; no where it has ended before
    local told
    while read -r -a told <"/proc/$1/stat" && [ "${told[2]}" != Z ]; do
        [ "$((told[13] + told[14]))" -lt "$(($(getconf CLK_TCK) / 2))" ] || return 0
        sleep 0.01
    done 2>"$work/gone"
    return 1
}
expect 0 '~^classes 6373080$' '' build --set 112 --out "$work/longer.db"
for given in '' --progress; do
    "$program" check --db "$work/longer.db" $given >"$work/out" 2>"$work/err" &
    checking=$!
    if works "$checking" && kill -STOP "$checking" && sleep 1.2 && kill -CONT "$checking"; then good=yes; else good=no; fi
    wait "$checking" || good=no
    if [ -n "$given" ]; then grep -q ' s, [0-9]* %' "$work/err" || good=no; elif [ -s "$work/err" ]; then good=no; fi
    note "a check of 112 that is stopped for a second${given:+, with }$given: $(head -c 80 "$work/err")" "$good"
done
rm -f "$work/longer.db"
# Without --nodes a build takes a node a processor, 16 at most: of its threads, counted over and over, there are mostly one a node and the main one.
for processors in 0 0,1 ''; do
    run=()
    [ -z "$processors" ] || run=(taskset -c "$processors")
    if ! wanted="$("${run[@]}" nproc 2>"$work/err")"; then
        note "a node a processor: not looked at, since there is no taskset or no second processor" yes
        continue
    fi
    [ "$wanted" -le 16 ] || wanted=16
    "${run[@]}" "$top/crates/dobutsu/out/dobutsu" build --set 111 --out "$other" >"$work/out" 2>"$work/err" &
    building=$!
    while readlink -q "/proc/$building/exe" >"$work/exe"; do
        find "/proc/$building/task" -mindepth 1 -maxdepth 1 2>"$work/err" | wc -l
        sleep 0.02
    done >"$work/looks"
    wait "$building"
    mostly="$(sort "$work/looks" | uniq -c | sort -rn | awk 'NR == 1 { print $2 }')"
    if [ "$mostly" = "$((wanted + 1))" ]; then good=yes; else good=no; fi
    note "a build without --nodes has mostly $mostly threads, by $wanted processors" "$good"
done
# by rules B: of lions alone the files differ in byte 12 and the digest alone; with a chick fewer classes, and E26 before E7
ruled="$work/ruled.db"
expect 0 "$of_lions" '' build --set 000 --rules B --nodes 2 --out "$ruled"
expect 0 'consistent' '' check --db "$ruled"
if [ "$(cmp -l "$ruled" "$lions_2" | awk '$1 < 130 { print $1, $2, $3 }')" = '13 1 0' ] && [ "$(wc -c <"$ruled")" = 161 ]; then good=yes; else good=no; fi
note "the files of lions alone by both rules differ in byte 12 and the digest alone" "$good"
expect 1 '' 'dobutsu: E26 FarChick' probe --db "$ruled" "$far_chick"
expect 1 '' 'dobutsu: E7 OtherSet' probe --db "$ruled" '..l/.../.../L.. C -'
expect 0 '~^classes 1864$' '' build --set 100 --nodes 3 --out "$ruled" --rules=B
expect 0 'consistent' '' check --db "$ruled"
for words in probe line moves look 'show --db'; do
    read -r -a given <<<"$words"
    [ "${#given[@]}" = 2 ] || given+=(--db)
    expect 1 '' 'dobutsu: E26 FarChick' "${given[@]}" "$ruled" "$far_chick"
    expect 1 '' 'dobutsu: E26 FarChick' "${given[@]}" "$ruled" 'C.l/.../.../L.. C -'
done
expect 0 'classes 1864' '' migrate --db "$ruled" --out "$work/migrated.db"
if cmp -s "$work/migrated.db" "$ruled"; then good=yes; else good=no; fi
note "a file of rules B migrated is the same file" "$good"
expect 1 '' 'dobutsu: E25 SetText' build --set 3 --nodes 0 --out "$work/refused.db"
expect 1 '' 'dobutsu: E9 Nodes' build --set 222 --nodes 0 --out "$work/refused.db"
expect 1 '' 'dobutsu: E9 Nodes' build --set 000 --nodes 0 --out "$work/refused.db"
expect 1 '' 'dobutsu: E9 Nodes' build --set 000 --nodes 17 --out "$work/refused.db"
expect 1 '' 'dobutsu: E9 Nodes' build --set 000 --nodes 18446744073709551615 --out "$work/refused.db"
if [ -e "$work/refused.db" ]; then good=no; else good=yes; fi
note "a refused build makes no file" "$good"
fails_at "$work/none/built.db" "$gone" build --set 000 --nodes 2 --out "$work/none/built.db"
fails_at "$work" "$folder" build --set 000 --nodes 2 --out "$work"
if [ -c /dev/full ]; then fails_at /dev/full "$full" build --set 000 --nodes 2 --out /dev/full; fi

# A file is as it was until the new one is whole: where a build is killed at some moment, where the disk takes no more, and
# where a part of a killed build is left. Afterwards there is no part.
cp testdata/lions_alone.db "$work/kept.db"
printf 'left' >"$work/kept.db.part"
expect 0 "$of_chick" '' build --set 100 --nodes 2 --out "$work/kept.db"
if cmp -s "$work/kept.db" testdata/one_chick_2.db && [ ! -e "$work/kept.db.part" ]; then good=yes; else good=no; fi
note "a build over a file, and over a part that was left" "$good"
same=yes
for moment in $(seq 20); do
    cp testdata/lions_alone.db "$work/kept.db"
    (timeout --foreground -s KILL "0.0$(printf '%02d' "$moment")" "$top/crates/dobutsu/out/dobutsu" build --set 100 --nodes 4 --out "$work/kept.db" \
        || true) >"$work/out" 2>&1
    cmp -s "$work/kept.db" testdata/lions_alone.db || cmp -s "$work/kept.db" testdata/one_chick_2.db || same=no
done
note "builds killed at 20 moments leave the file as it was, or whole" "$same"
cp testdata/lions_alone.db "$work/kept.db"
(ulimit -f 2; trap '' XFSZ; python3 tests/terminal.py "$work/err" "$program" build --set 100 --nodes 2 --out "$work/kept.db") >"$work/out" &&
    status=0 || status=$?
if [ "$status" = 3 ] && holds "$work/err" "$(caused "$work/kept.db" 'File too large (os error 27)')" && cmp -s "$work/kept.db" testdata/lions_alone.db \
    && [ ! -e "$work/kept.db.part" ]; then good=yes; else good=no; fi
note "a build whose file may not grow leaves the one that was there, and no part: status $status, $(tail -1 "$work/err")" "$good"
# where that isn't ignored the system ends the program by it, as by any other kill: its part stays until the next build
(ulimit -f 0; exec "$program" build --set 000 --nodes 2 --out "$work/limited.db" 2>&1) | cat >"$work/out"
status="${PIPESTATUS[0]}"
if [ "$status" = 153 ] && [ -e "$work/limited.db.part" ] && [ ! -e "$work/limited.db" ]; then good=yes; else good=no; fi
note "a build that the system ends since its file may not grow: status $status" "$good"
expect 0 '~^classes 54$' '' build --set 000 --nodes 2 --out "$work/limited.db"
if cmp -s "$work/limited.db" "$lions_2" && [ ! -e "$work/limited.db.part" ]; then good=yes; else good=no; fi
note "and the next build" "$good"
expect 0 '~^classes 54$' '' build --set 000 --nodes 2 --out /dev/null
# a rebuilt file keeps its mode, whatever the shell would give it, and a new one has that
same=yes
for mode in 600 644 755 444; do
    cp testdata/one_chick.db "$work/mode.db"
    chmod "$mode" "$work/mode.db"
    (umask 027; "$program" build --set 000 --nodes 2 --out "$work/mode.db") >"$work/out" 2>&1 || same=no
    [ "$(stat -c %a "$work/mode.db")" = "$mode" ] && cmp -s "$work/mode.db" testdata/lions_alone_2.db || same=no
done
rm -f "$work/mode.db"
(umask 027; "$program" build --set 000 --nodes 2 --out "$work/mode.db") >"$work/out" 2>&1 || same=no
[ "$(stat -c %a "$work/mode.db")" = 640 ] || same=no
note "a rebuilt file keeps its mode, and a new one has that of the shell: $(stat -c %a "$work/mode.db")" "$same"
# the part never has a wider mode than the file will have, whatever the shell allows: it is opened with that mode, and given no other
if command -v strace >/dev/null && strace -qq -o "$work/calls" true 2>/dev/null; then
    same=yes
    for mode in 600 640 444; do
        cp testdata/one_chick.db "$work/mode.db"
        chmod "$mode" "$work/mode.db"
        (umask 0; strace -f -qq -e trace=open,openat,creat,chmod,fchmod,fchmodat -o "$work/calls" \
            "$program" build --set 000 --nodes 2 --out "$work/mode.db") >"$work/out" 2>&1 || same=no
        made="$(grep 'mode\.db\.part.*O_CREAT' "$work/calls" | grep -c "O_EXCL.*, 0$mode)")"
        [ "$made" = 1 ] && [ "$(grep -c 'O_CREAT' "$work/calls")" = 1 ] || same=no
        ! grep 'chmod' "$work/calls" | grep -qv ", 0$mode)" || same=no
        [ "$(stat -c %a "$work/mode.db")" = "$mode" ] || same=no
    done
    note "the part of a file is opened with the mode of that file: $(grep 'O_CREAT' "$work/calls" | head -c 80)" "$same"
else
    echo 'Not run: the mode with which a part is opened, since no strace is here.'
fi
# standard streams that are closed lead nowhere: no file that is opened takes their numbers, and counts that can't be printed are E24
same=yes
"$program" build --set 000 --nodes 2 --progress --out "$work/silent.db" 2>&- >"$work/out" || same=no
cmp -s "$work/silent.db" testdata/lions_alone_2.db && grep -qx 'classes 54' "$work/out" || same=no
rm -f "$work/silent.db"
"$program" build --set 000 --nodes 2 --out "$work/silent.db" <&- >&- 2>&-
[ "$?" = 3 ] || same=no
cmp -s "$work/silent.db" testdata/lions_alone_2.db || same=no
"$program" look --each --db "$lions" <&- >"$work/out" 2>"$work/err" || same=no
[ ! -s "$work/out" ] && [ ! -s "$work/err" ] || same=no
note "closed standard streams lead nowhere: $(head -c 80 "$work/out")" "$same"
# a link stays, and what it leads to is written
cp testdata/lions_alone.db "$work/behind.db"
ln -s behind.db "$work/link.db"
expect 0 "$of_chick" '' build --set 100 --nodes 2 --out "$work/link.db"
if [ -L "$work/link.db" ] && cmp -s "$work/behind.db" testdata/one_chick_2.db && [ ! -e "$work/link.db.part" ]; then good=yes; else good=no; fi
note "a build to a link's name writes what the link leads to" "$good"

# Folders that take no file: where none can be made, on a file system of 1 MB that fills up, and on one that can only be read. The
# file that was there stays, and no part is left. The two file systems need a room of their own, which not each system gives.
if [ -d /proc ]; then fails_at /proc/built.db "$gone" build --set 000 --nodes 2 --out /proc/built.db; fi
mkdir "$work/small"
no_room() {
    local good=no reason="$full"
    [ "$1" = rw ] || reason='Read-only file system (os error 30)'
    # shellcheck disable=SC2016
    if unshare -rm bash -c '
        mount -t tmpfs -o size=1m none "$1" && cp testdata/lions_alone.db "$1/kept.db" && mount -o "remount,size=1m,$3" "$1" || exit 1
        python3 tests/terminal.py "$4" "$2" build --set 111 --nodes 4 --out "$1/kept.db"
        [ "$?" = 3 ] && cmp -s "$1/kept.db" testdata/lions_alone.db && [ "$(ls "$1")" = kept.db ]
    ' bash "$work/small" "$top/crates/dobutsu/out/dobutsu" "$1" "$work/err" >"$work/out" 2>&1 && [ ! -s "$work/out" ] \
        && holds "$work/err" "$(caused "$work/small/kept.db" "$reason")"; then good=yes; fi
    note "a build on a file system of 1 MB, mounted $1: $(head -c 80 "$work/err")" "$good"
}
if unshare -rm mount -t tmpfs -o size=1m none "$work/small" 2>/dev/null; then
    no_room rw
    no_room ro
else
    echo 'Not run: a build on a file system of 1 MB, since none can be mounted here (unshare, mount).'
fi

# Two builds to one name at once: the file is whole afterwards, there is no part, and whoever hasn't made it says so.
same=yes
for turn in $(seq 20); do
    if [ $((turn % 2)) = 0 ]; then set=000; else set=100; fi
    rm -f "$work/kept.db"
    "$top/crates/dobutsu/out/dobutsu" build --set 100 --nodes 2 --out "$work/kept.db" >"$work/out" 2>"$work/err" &
    first=$!
    later=0
    "$top/crates/dobutsu/out/dobutsu" build --set "$set" --nodes 2 --out "$work/kept.db" >"$work/later" 2>"$work/later_err" || later=$?
    wait "$first" && first=0 || first=$?
    case "$first$later" in
        00) [ ! -s "$work/err" ] && [ ! -s "$work/later_err" ] ;;
        03) [ ! -s "$work/err" ] && holds "$work/later_err" "$io_line" ;;
        30) holds "$work/err" "$io_line" && [ ! -s "$work/later_err" ] ;;
        *) false ;;
    esac || same=no
    cmp -s "$work/kept.db" testdata/one_chick_2.db || { [ "$set" = 000 ] && cmp -s "$work/kept.db" testdata/lions_alone_2.db; } || same=no
    [ ! -e "$work/kept.db.part" ] || same=no
done
note "two builds to one name at once, 20 times" "$same"

# A build has its part from its start: another one to the same name is refused at once, by what is being written, and so is a name that is too
# long with `.part` behind it. What a killed build leaves is nobody's.
rm -f "$work/kept.db"
"$top/crates/dobutsu/out/dobutsu" build --set 211 --nodes 2 --out "$work/kept.db" >"$work/out" 2>&1 &
first=$!
for turn in $(seq 200); do
    [ ! -e "$work/kept.db.part" ] || break
    sleep 0.02
done
at_once() {
    local status=0 good=no name="$1"
    shift
    timeout 10 python3 tests/terminal.py "$work/later_err" "$program" "$@" --out "$work/$name" >"$work/later" || status=$?
    if [ "$status" = 3 ] && [ ! -s "$work/later" ] && holds "$work/later_err" "$(caused "$work/$name" "$reason")"; then good=yes; fi
    note "$* --out $(head -c 20 <<<"$name"), refused at once: status $status, $(head -c 80 "$work/later_err")" "$good"
}
reason='another run is writing it'
at_once kept.db build --set 222 --nodes 2
at_once kept.db build --set 222 --nodes 2 --progress
at_once kept.db migrate --db "$lions"
at_once kept.db certify --db "$lions" "$position"
if [ -e "$work/kept.db.part" ] && [ ! -e "$work/kept.db" ] && kill -0 "$first" 2>/dev/null; then good=yes; else good=no; fi
note "a build goes on while others are refused its name" "$good"
kill -KILL "$first"
wait "$first" 2>/dev/null
if [ -e "$work/kept.db.part" ]; then good=yes; else good=no; fi
note "a killed build leaves its part" "$good"
expect 0 "$of_chick" '' build --set 100 --nodes 2 --out "$work/kept.db"
if [ ! -e "$work/kept.db.part" ] && cmp -s "$work/kept.db" testdata/one_chick_2.db; then good=yes; else good=no; fi
note "the next build takes the part of a killed one" "$good"
reason='File name too long (os error 36)'
at_once "$(printf 'a%.0s' $(seq 252))" build --set 222 --nodes 2
at_once "$(printf 'a%.0s' $(seq 252))" certify --db "$lions" "$position"
reason="$gone"
at_once none/kept.db build --set 222 --nodes 2
expect 1 '' 'dobutsu: E9 Nodes' build --set 222 --nodes 0 --out "$work/none/kept.db"
# nor does a build that is refused take anything from what a link leads to
cp testdata/lions_alone.db "$work/behind.db"
expect 1 '' 'dobutsu: E9 Nodes' build --set 100 --nodes 17 --out "$work/link.db"
(timeout --foreground -s KILL 0.3 "$program" build --set 211 --nodes 2 --out "$work/link.db" || true) >"$work/out" 2>&1
if [ -L "$work/link.db" ] && cmp -s "$work/behind.db" testdata/lions_alone.db; then good=yes; else good=no; fi
note "a build that is refused or killed leaves what a link leads to" "$good"

# Builds end, and give one file whatever the number of nodes; 200 of them in a row too.
for set in 000 100 010 001 200; do
    same=yes
    for nodes in 1 2 3 4 16; do
        timeout 100 "$program" build --set "$set" --nodes "$nodes" --out "$work/$set.$nodes.db" >"$work/out" 2>&1 || same=no
        cmp -s "$work/$set.1.db" "$work/$set.$nodes.db" || same=no
    done
    note "one file of $set by 1, 2, 3, 4 and 16 nodes" "$same"
    expect 0 'consistent' '' check --db "$work/$set.1.db"
done
same=yes
for turn in $(seq 200); do
    timeout 100 "$program" build --set 100 --nodes $((2 + turn % 15)) --out "$built" >"$work/out" 2>&1 || same=no
    cmp -s "$built" testdata/one_chick_2.db || same=no
done
note "200 builds of 100 by 2 to 16 nodes end, with one file" "$same"
