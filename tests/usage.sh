# Help, the manual page and completions, the version, and words that it does not know.

# Help, each text whole, and the version. The program's names the subcommands.
for words in '--help' '-h' 'help'; do helps dobutsu "$words"; done
forms="$(sed -n '/^Commands:/,/^$/s/^  \([a-z]*\) .*/\1/p' testdata/texts/dobutsu.txt)"
for form in $forms; do
    [ "$form" != help ] || continue
    helps "$form" "$form" --help
    helps "$form" "$form" -h
    helps "$form" help "$form"
done
helps value value - --help
helps count count --set 100 -h
helps count count --set=100 --help
helps build build --nodes=2 -h
expect 0 '~^Usage: dobutsu help' '' help help
expect 0 'dobutsu 0.1.0' '' --version

# Words that it doesn't know.
expect 2 '' "error: 'dobutsu' requires a subcommand but one was not provided
  [subcommands: $(paste -s -d, <<<"$forms" | sed 's/,/, /g')]

Usage: dobutsu <COMMAND>

For more information, try '--help'."
misused 'requires a subcommand'
misused "'solve'" solve
misused "'solve'" help solve
misused "'--help'" help --help
misused "'more'" help value more
misused "'worth'" worth a
misused "'--value'" --value
misused "'--set'" --set 100
misused "'value'" -- value a
misused '<POSITION>' value
misused "'b'" value a b
misused "'more'" value "$position" more
misused "'-x'" value -x
misused "'--help'" value --help=x
misused '--set <CEG>' count
misused "'100'" count 100
misused '--set <CEG>' count --set
misused "'-1'" count --set -1
misused '--set <CEG>' count --set --help
misused '--set <CEG>' count --set --
misused "'200'" count --set 100 200
misused "'100'" count --set 100 100
misused '--set <CEG>' count --set=100 --set=100
misused '--set <CEG>' count --set 100 --set 100
misused "'x'" count --set=100 -- x
misused "'-s'" count -s 100
misused "'--sets'" count --sets=100
misused "'two'" build --nodes two
misused "'-2'" build --nodes -2
misused '--nodes <N>' build --nodes=
misused '--nodes <N>' build --nodes=2 --nodes=2
misused "'x'" build --nodes=x --help
misused "'1.5'" build --set=000 --nodes 1.5 --help
misused "'000'" build 000
misused '--out <FILE>' build --set 000
misused '--out <FILE>' build --set 000 --nodes 2
misused "'x'" build --set 000 --nodes x --out "$work/none.db"
misused "'18446744073709551616'" build --set 000 --nodes 18446744073709551616 --out "$work/none.db"
misused '--db <FILE>' probe "$position"
misused '<POSITION>' probe --db x
misused "'--each'" probe --db x --each "$position"
misused '--db <FILE>' probe --each
misused "'x'" probe --db x --each=x
misused '--each' probe --db x --each --each
misused '<POSITION>' line --db x
misused '<POSITION>' look --db x
misused 'dobutsu look' look --db x --each "$position"
misused '--db <FILE>' look --each
misused '--db <FILE>' line --numbered "$position"
misused '<POSITION>' line --numbered --db x
misused "'x'" line --db x --numbered=x "$position"
misused '--numbered' line --db x --numbered --numbered "$position"
misused '<POSITION>' line --records --db x
misused "'x'" line --db x --records=x "$position"
misused '--records' line --db x --records --records "$position"
misused "'--records'" look --records --db x "$position"
misused "'--svg'" line --db x --svg y "$position"
misused '<POSITION>' show
misused '<POSITION>' show --db x
misused '--db <FILE>' show --db --svg x "$position"
misused '--svg <OUT>' show --svg x --svg y "$position"
misused "'--numbered'" show --numbered "$position"
misused '--db <FILE>' stats
misused "'a'" stats --db x a
misused '--db <FILE>' zugzwangs --list 1
misused "'x'" zugzwangs --db x --list x
misused "'a'" zugzwangs --db x a
misused '--plies <D>' puzzles --db x --count 1
misused '--count <N>' puzzles --db x --plies 3
misused "'x'" puzzles --db x --plies x --count 1
misused "'-1'" puzzles --db x --plies 3 --count -1
misused "'a'" puzzles --db x --plies 3 --count 1 a
misused "'x'" puzzles --db x --plies 3 --count 1 --from x
misused "'18446744073709551616'" puzzles --db x --plies 3 --count 1 --random 18446744073709551616
misused '<POSITION>' best --db x
misused '--db <FILE>' best x
misused '<POSITION>' moves --db x
misused '--db <FILE>' moves "$position"
misused '--db <FILE>' look "$position"
misused '--db <FILE>' check
misused "'a'" check a
misused '--rules <PROFILE>' value --rules "$position" --rules A
misused "'C'" value --rules C "$position"
misused "'b'" count --set 100 --rules b
misused '--rules <PROFILE>' build --set 000 --nodes 2 --out "$work/none.db" --rules=
misused "'x'" build --set 000 --nodes 2 --out "$work/none.db" --progress=x
misused '--progress' check --progress --db x --progress
misused "'--progress'" probe --progress --db x "$position"
misused "'--rules'" probe --db x --rules B "$position"
misused '<POSITION>' reach --levels
misused "'b'" reach "$position" --rules b
misused "'x'" reach "$position" --levels=x
misused "'--set'" reach --set 000 "$position"
misused "'--values' needs '--db <FILE>'" reach --values "$position"
misused "'--values' needs '--db <FILE>'" reach --values --levels --json --rules A "$position"
misused '<POSITION>' reach --values --db x
misused "'x'" reach "$position" --db x --values=x
misused '--values' reach "$position" --values --db x --values
misused '--json' reach "$position" --json --json
misused '--out <OUT>' migrate --db x
misused '--db <FILE>' migrate --out x
misused "'a'" migrate --db x --out y a
misused '--out <CERT>' certify --db x "$position"
misused '--db <FILE>' certify --out x "$position"
misused '<POSITION>' certify --db x --out y
misused "'b'" certify --db x --out y --most b "$position"
misused "'--exact'" certify --db x --out y --exact --exact "$position"
misused '--cert <CERT>' verify
misused "'a'" verify --cert x a
misused '--cert <CERT>' reply "$position"
misused '<POSITION>' reply --cert x
misused "'--progress'" reply --cert x --progress "$position"
misused '<FILE>' info
misused '<FILE>' info --json
misused "'b'" info a b
misused "'--db'" info --db a
misused '--json' info a --json --json
misused "'b'" check --db a b

# A file that is to be written to a stream of the program.
for stream in - /dev/stdin /dev/stdout /dev/stderr /dev/fd/1 /proc/self/fd/2; do
    misused "'$stream' for '--out <FILE>'" build --set 000 --nodes 2 --out "$stream"
    misused "'$stream' for '--out <OUT>'" migrate --db "$lions" --out="$stream"
    misused "'$stream' for '--out <CERT>'" certify --db "$lions" "$position" --out "$stream"
    misused "'$stream' for '--svg <OUT>'" show --svg "$stream" "$position"
done
expect 2 '' "error: invalid value '-' for '--out <FILE>': it names a stream, not a file

For more information, try '--help'." build --set 000 --out -
misused "'-' for '--out <FILE>'" build --set 3 --nodes 0 --out -
# What a word has that does something to a terminal is shown by its bytes.
misused "'\\x1b[31m\\n\\xc2\\x9b2J'" build --set 000 --out "$work/none.db" --nodes $'\e[31m\n\u009b2J'
misused '\xe2\x80\xae' $'\u202ebuild' --set 000
# By any other name a stream is refused too, and so is a file that is read: nothing is written, and nothing is lost.
misplaced='error: the file to be made is the one that is read, or a stream of the program'
lost() {
    local status=0 good=no
    "$program" "$@" </dev/null >"$work/streamed" 2>"$work/err" || status=$?
    if [ "$status" = 2 ] && [ ! -s "$work/streamed" ] && [ "$(head -1 "$work/err")" = "$misplaced" ] && cmp -s "$lions_2" "$work/read.db" &&
        [ ! -e "$work/read.db.part" ]; then good=yes; fi
    note "./dobutsu $(printf '%q ' "$@"): status $status, $(head -1 "$work/err")" "$good"
}
cp "$lions_2" "$work/read.db"
ln "$work/read.db" "$work/hard.db"
ln -s "$work/read.db" "$work/soft.db"
ln -s /dev/stdout "$work/stream.db"
for name in //dev/stdout /dev/../dev/stdout /dev/./fd/1 /proc/thread-self/fd/1 /proc/self/task/../fd/1 //dev/stderr "$work/streamed" "$work/stream.db"; do
    lost build --set 000 --out "$name"
    lost migrate --db "$work/read.db" --out "$name"
    lost certify --db "$work/read.db" --out "$name" "$position"
    lost show --svg "$name" "$position"
done
for name in "$work/read.db" "$work//read.db" "$work/hard.db" "$work/soft.db"; do
    lost certify --db "$work/read.db" --out "$name" "$position"
    lost show --db "$work/read.db" --svg "$name" "$position"
done
expect 0 '~classes 54' '' build --set 000 --out /dev/null
helps build build --out - --set 000 --help
if [ -e ./- ]; then good=no; else good=yes; fi
note "no file is written by the name of a stream" "$good"

# Words that aren't UTF-8, the name of a file among them.
expect 2 '' $'error: an argument is not UTF-8\n\nFor more information, try \'--help\'.' value $'\xff'
expect 2 '' '~UTF-8' $'\xff'
expect 2 '' '~UTF-8' value "$position" $'\xc3'
expect 2 '' '~UTF-8' build --set 000 --out $'\xff.db'
expect 2 '' '~UTF-8' check --db $'\xff.db'

# The manual page and the completions (tools/manual) name each subcommand and each option that the help does, and a shell that is here reads them.
options_of() { sed -n '/^Options:/,/^$/s/^ *\(-h, \)\{0,1\}\(--[a-z]*\).*/\2/p' "testdata/texts/$1.txt" | sort; }
good=no
if tools/manual "$work" >"$work/out" 2>&1 && [ -n "$forms" ]; then good=yes; fi
note "tools/manual: $(head -1 "$work/out")" "$good"
# What bash completes behind the words.
completes() {
    bash -c '. "$1"; shift; COMP_WORDS=("$@"); COMP_CWORD=$(($# - 1)); _dobutsu; printf "%s\n" "${COMPREPLY[@]}"' bash \
        "$work/completions/dobutsu.bash" "$@" | sort
}
same=yes
[ "$(completes dobutsu '' | grep -v -e '^--')" = "$(echo "$forms" | sort)" ] || same=no
[ "$(completes dobutsu value --rules '')" = $'A\nB' ] || same=no
[ "$(completes dobutsu value --rules = '')" = $'A\nB' ] || same=no
[ "$(completes dobutsu value --rules=)" = $'--rules=A\n--rules=B' ] || same=no
[ "$(completes dobutsu count --set 21)" = $'210\n211\n212' ] || same=no
[ "$(completes dobutsu build --set = | wc -l)" = 27 ] || same=no
[ "$(completes dobutsu build --nodes 1 | wc -l)" = 8 ] || same=no
for words in '--db' '--db =' '--db='; do
    read -r -a given <<<"$words"
    front=''
    [ "$words" = '--db=' ] && front='--db=' && given=()
    [ "$(completes dobutsu check "${given[@]}" "${front}testdata/lions_alone.d")" = "${front}testdata/lions_alone.db" ] || same=no
done
for form in $forms; do
    [ "$form" != help ] || continue
    sed -n "/^\\.SS $form\$/,/^\\.S[SH] /p" "$work/dobutsu.1" | grep -A1 '^\.TP' | grep -o -e '^\\fB\\-\\-[a-z]*' | sed 's/^.*-/--/' >"$work/in_page"
    echo --help >>"$work/in_page"
    options="$(options_of "$form")"
    [ "$(sort "$work/in_page")" = "$options" ] || same=no
    [ "$(completes dobutsu "$form" --)" = "$options" ] || same=no
    in_fish="$(grep -o -e "__fish_seen_subcommand_from $form' -l [a-z]*" "$work/completions/dobutsu.fish" | sed 's/.* -l /--/' | sort)"
    in_zsh="$(sed -n "/^ *$form) _arguments/,/;;/p" "$work/completions/_dobutsu" | grep -o -e "'--[a-z]*\[" | tr -d "'[" | sort)"
    [ "$in_fish" = "$options" ] || same=no
    [ "$in_zsh" = "$options" ] || same=no
done
note "the manual page and the completions name what the help does" "$same"
for tool in 'groff -man -Tutf8 -ww -z dobutsu.1' 'bash -n completions/dobutsu.bash' 'zsh -n completions/_dobutsu' 'fish -n completions/dobutsu.fish'; do
    read -r -a given <<<"$tool"
    command -v "${given[0]}" >/dev/null || { echo "Not run: $tool, since ${given[0]} isn't here."; continue; }
    good=no
    if (cd "$work" && "${given[@]}") >"$work/out" 2>&1 && [ ! -s "$work/out" ]; then good=yes; fi
    note "$tool: $(head -1 "$work/out")" "$good"
done
