#!/usr/bin/env bash
# Runs cribstork over the example fonts, banks, names, damaged copies, files that are no fonts and wrong arguments, and compares
# what it writes to standard output and standard error, and the exit status of tools/cribstork.sh, with transcript.txt.
#
#     tools/runs/run.sh             # exit 1 where something differs
#     tools/runs/run.sh --record    # writes transcript.txt
#
# CRIBSTORK names the program (tools/build.sh program). The runs are made in a copy of crates/cribstork/data, as nobody where this is root.
set -uo pipefail
cd "$(dirname "$0")/../.."
program=${CRIBSTORK:-target/bin/cribstork}
if [ ! -x "$program" ]; then
    echo "tools/runs/run.sh: $program is not there: tools/build.sh program makes it, or CRIBSTORK names it" >&2
    exit 2
fi
recorded=$PWD/tools/runs/transcript.txt
work=$(mktemp -d)
trap 'chmod -R u+rwX "$work"; rm -rf "$work"' EXIT
chmod 755 "$work"
cp -r crates/cribstork/data "$work/data"
cp examples/windows.tsv "$work/data/examples"
cp "$program" "$work/cribstork"
cp tools/cribstork.sh "$work/cribstork.sh"
chmod -R a+rX "$work"
as=()
if [ "$(id -u)" -eq 0 ] && command -v setpriv >/dev/null; then
    as=(setpriv --reuid=65534 --regid=65534 --clear-groups)
fi
cd "$work/data"
mkdir folder
tsv() { printf "$2" >"$1.tsv"; }
tsv no-output 'name\tstems\tcommands\none\t16\t64\n'
tsv no-number 'name\tstems\tcommands\toutput\none\t16\tmany\t512\n'
tsv too-large 'name\tstems\tcommands\toutput\none\t16\t64\t512\ntwo\t16\t64\t20000\n'
tsv five-entries 'name\tstems\tcommands\toutput\ta\tb\tc\td\ttx\tty\none\t16\t64\t512\t1\t0\t0\t1\t0\n'
tsv no-entry 'name\tstems\tcommands\toutput\ta\tb\tc\td\ttx\tty\none\t16\t64\t512\t1\t0\t0\tone\t0\t0\n'
tsv more-cells 'name\tstems\tcommands\toutput\none\t16\t64\t512\t7\n'
tsv twice 'name\tstems\tcommands\toutput\none\t16\t64\t512\none\t16\t64\t256\n'
tsv no-bank '# nothing\nname\tstems\tcommands\toutput\n'
tsv order '# other columns, in another order; an empty matrix\n\noutput\tstreet\tname\tcommands\tstems\ta\tb\tc\td\ttx\tty\r\n+1e3\tElm\tone\t64\t16\t-\t-\t-\t-\t-\t-\r\n202\tOak\ttwo\t64\t16 # one byte short\r\n300\t\tthree\t19\t6\t1\t0\t0\t1\t0\t0\n'
tsv three-bounds 'name\tstems\tcommands\toutput\tx0\ty0\tx1\ty1\none\t16\t64\t512\t0\t0\t480\n'
tsv no-bound 'name\tstems\tcommands\toutput\tx0\ty0\tx1\ty1\none\t16\t64\t512\t0\t0\t480\thigh\n'
tsv beyond 'name\tstems\tcommands\toutput\tx0\ty0\tx1\ty1\none\t16\t64\t512\t0\t0\t480\t700\ntwo\t16\t64\t512\t0\t-1e15\t480\t700\n'
tsv windows 'y1\tx1\ty0\tx0\tname\tcommands\tstems\toutput\n7.1e2\t439.5\t-10\t+40.5\tedges\t64\t16\t512\n710\t439.49999\t-10\t40.5\tnarrow\t64\t16\t512\n710\t40\t-10\t440\tempty\t64\t16\t512\n-\t-\t-\t-\tnone\t64\t16\t512\n700\t480\t0\t0\tshort\t64\t16\t64\n'
tsv strict 'name\tstems\tcommands\toutput\tstrict\nstrict\t16\t64\t512\tyes\nlenient\t16\t64\t512\tno\nempty\t16\t64\t512\t\ndash\t16\t64\t512\t-\nsmall\t16\t64\t20\tyes\n'
tsv strict-order 'strict\tty\ttx\td\tc\tb\ta\ty1\tx1\ty0\tx0\tname\tcommands\tstems\toutput\nyes\t-\t-\t-\t-\t-\t-\t-\t-\t-\t-\tstrict\t64\t16\t512\n no \t0\t0\t1\t0\t0\t1\t700\t480\t0\t0\tlenient\t64\t16\t512\n\t0\t0\t1\t0\t0\t1\t600\t480\t0\t0\tempty\t64\t16\t512\n'
tsv no-answer 'name\tstems\tcommands\toutput\tstrict\none\t16\t64\t512\tno\ntwo\t16\t64\t512\tYes\n'
tsv no-answer-2 'strict\tname\tstems\tcommands\toutput\n1\tone\t16\t64\t512\n'
printf 'number24 number25\n' >operands.txt
printf '' >none.txt
printf ' \n' >blank.txt
printf 'zero\teight  Euro\nzero Euro seven\n' >some.txt
chmod a+r ./*.tsv ./*.txt

run() { # ARGUMENTS..
    printf '$ cribstork'
    printf ' %q' "$@"
    echo
    CRIBSTORK="$work/cribstork" "${as[@]}" "$work/cribstork.sh" "$@" >"$work/out" 2>"$work/err" </dev/null
    echo "status $?"
    sed 's/^/  /' "$work/out"
    sed 's/^/! /' "$work/err"
    echo
}

transcript() {
    run examples/digits.pfb
    run --hex examples/digits.pfb examples/digits.pfa examples/digits.t1
    run --glyph zero,nine,Euro --glyph one --stems 4 --output 100 examples/digits.pfb
    run --font-matrix examples/digits.pfb damaged/matrix-forms.pfb
    run --matrix 1e20 0 0 0 0 0 --glyph space examples/digits.pfb
    run damaged/*
    run folder missing.pfb /dev/zero
    run --banks examples/banks.tsv --need examples/label.txt examples/digits.pfb examples/digits.pfa damaged/fewer-glyphs.pfb damaged/cut.pfb damaged/truetype.ttf
    run --banks examples/banks.tsv examples/digits.pfb
    run --banks order.tsv --need some.txt examples/digits.pfb
    run --banks order.tsv --matrix 0.25 0 0 0.25 0 0 examples/digits.pfb
    for f in no-output no-number too-large five-entries no-entry more-cells twice no-bank missing; do run --banks "$f.tsv" examples/digits.pfb; done
    run --banks examples/windows.tsv --need examples/label.txt examples/digits.pfb damaged/cut.pfb
    run --banks windows.tsv --need some.txt examples/digits.pfb
    run --banks windows.tsv --matrix 0.25 0 0 0.25 0 0 examples/digits.pfb
    for f in three-bounds no-bound beyond; do run --banks "$f.tsv" examples/digits.pfb; done
    for f in none blank missing; do run --banks order.tsv --need "$f.txt" examples/digits.pfb; done
    run --help
    run -h
    run --version
    run
    cd folder
    run
    cd ..
    run --banks examples/banks.tsv
    run --unknown
    run -x
    for o in --stems --commands --output --glyph --banks --need; do run examples/digits.pfb "$o"; done
    run --matrix 1 0 0 1 0
    run --stems some examples/digits.pfb
    run --stems 1.5 examples/digits.pfb
    run --stems -1 examples/digits.pfb
    run --stems 1001 examples/digits.pfb
    run --commands 1025 examples/digits.pfb
    run --output 16385 examples/digits.pfb
    run --stems +1e1 --commands 2.5E1 --output 256 --glyph eight examples/digits.pfb
    run --matrix 1 0 0 north 0 0 examples/digits.pfb
    run --matrix 1e999 0 0 1 0 0 examples/digits.pfb
    run --stems 4 --stems 5 examples/digits.pfb
    run --font-matrix --matrix 1 0 0 1 0 0 examples/digits.pfb
    run --window 0 -10 480 700 examples/digits.pfb
    run --window 40.5 -10 439.5 710 --glyph eight,space,accent --hex examples/digits.pfb examples/digits.pfa
    run --window -439.5 -7.1e2 -40.5 +10 --glyph eight --matrix -1 0 0 -1 0 0 examples/digits.pfb
    run --window 439.5 710 500 800 --glyph eight,nine examples/digits.pfb
    run --window -100 -100 40.5 -10 --glyph eight,nine examples/digits.pfb
    run --window 439.5 710.00002 500 800 --glyph eight,nine examples/digits.pfb
    run --window -100 -100 40.49999 800 --glyph eight,nine examples/digits.pfb
    run --window 440 0 40 700 --glyph eight,nine examples/digits.pfb
    run --window 40.500007629394531249 -10.00000762939453125 439.5 710 --glyph eight examples/digits.pfb
    run --window 40.50000762939453125 -.1e2 439.5 710. --glyph eight examples/digits.pfb
    run --window -140737488355328.0000076293945312499 -140737488355328 140737488355327.99999 14073748835532.8e1 --glyph eight examples/digits.pfb
    run --window -140737488355328.0000076293945312499 -140737488355328 140737488355327.99999 14073748835532.7e1 --glyph eight examples/digits.pfb
    run --window 0 -140737488355328.00000762939453125 1 1 examples/digits.pfb
    run --window 0 0 140737488355327.99999237060546875 1 examples/digits.pfb
    run --window 0 0 1e99999999999999999999 1 examples/digits.pfb
    run --window 0 0 480
    run --window 0 0 480 examples/digits.pfb
    run --window 0 0 480 nan examples/digits.pfb
    run --window 0 0 480 -- examples/digits.pfb
    run --window 0 0 1 1 --window 0 0 1 1 examples/digits.pfb
    run --strict
    run examples/operands.pfb
    run --strict examples/operands.pfb
    run --strict --hex --strict --glyph number24,number25,pop24,pop25 examples/operands.pfb
    run --strict examples/digits.pfb examples/operands.pfb damaged/cut.pfb
    run --table --strict --window 0 0 480 700 --stems 1 --commands 4 --output 40 --matrix 0.5 0 0 0.5 0 0 examples/digits.pfb examples/operands.pfb
    run --banks strict.tsv examples/operands.pfb examples/digits.pfb
    run --banks strict.tsv --strict examples/operands.pfb examples/digits.pfb
    run --strict --banks strict.tsv --need operands.txt examples/operands.pfb
    run --banks strict-order.tsv examples/operands.pfb
    run --strict --banks strict-order.tsv --need operands.txt examples/operands.pfb
    for f in no-answer no-answer-2; do run --strict --banks "$f.tsv" examples/operands.pfb; done
    run --strict=yes examples/operands.pfb
    run examples/operands.pfb --strict yes
    run --need some.txt examples/digits.pfb
    for o in --hex --table '--glyph one' '--stems 4' '--window 0 0 480 700'; do run --banks order.tsv $o examples/digits.pfb; done
}

if [ "${1:-}" = --record ]; then
    transcript >"$recorded"
    exit
fi
transcript >"$work/transcript"
failed=0
diff "$recorded" "$work/transcript" || failed=1
cp examples/digits.pfb secret.pfb
chmod 0 secret.pfb
if [ "$(id -u)" -ne 0 ] || [ ${#as[@]} -gt 0 ]; then
    said=$("${as[@]}" "$work/cribstork" secret.pfb 2>&1 | head -n 1)
    [ "$said" = 'secret.pfb: no permission to read it' ] || { echo "a file with no permission: $said"; failed=1; }
fi
"${as[@]}" "$work/cribstork" examples/digits.pfb >/dev/full 2>"$work/err"
grep -q 'standard output cannot be written' "$work/err" || { echo 'a full disk is not said'; failed=1; }
echo "$(grep -c '^\$' "$work/transcript") runs"
exit $failed
