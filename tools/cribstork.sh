#!/bin/sh
# Runs cribstork and turns its last line on standard error into an exit status:
#   0  every font prints on every bank     1  one does not
#   2  a font is unreadable                3  wrong arguments, a wrong file of banks or of names
#   4  the program did not end as it should
# CRIBSTORK names the program.
program=${CRIBSTORK:-$(dirname "$0")/../target/bin/cribstork}
if [ ! -x "$program" ]; then
    echo "tools/cribstork.sh: $program is not there: tools/build.sh program makes it, or CRIBSTORK names it" >&2
    exit 4
fi
said=$(mktemp) || exit 4
trap 'rm -f "$said"' EXIT
exec 3>&1
{ "$program" "$@" 2>&1 >&3 3>&-; echo $? >"$said.status"; } | tee "$said" >&2
status=$(cat "$said.status")
rm -f "$said.status"
[ "$status" -eq 0 ] || exit 4
# Help and version say nothing there.
[ -s "$said" ] || exit 0
totals=$(tail -n 1 "$said" | tr -d '\r' | sed -n 's/.*cribstork: fonts [0-9]*, banks [0-9]*, yes \([0-9]*\), no \([0-9]*\), unreadable \([0-9]*\)$/\1 \2 \3/p')
case $totals in
'')
    case $(tail -n 1 "$said") in
    *'standard output cannot be written') exit 4 ;;
    esac
    exit 3
    ;;
*' 0 0') exit 0 ;;
*' 0') exit 1 ;;
*) exit 2 ;;
esac
