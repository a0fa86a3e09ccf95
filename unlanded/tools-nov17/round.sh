cd $WORK/h/new
python3 $WORK/shared/tools/proofkit.py new cribstork > /tmp/new.log; grep -c wrote /tmp/new.log
python3 $WORK/h/tools/loopfill.py cribstork > /tmp/fill.log; grep -v filled /tmp/fill.log
rt fmt >/dev/null 2>&1
(time rt dev cribstork) > /tmp/dev.log 2>&1
grep "error\|no proof:\|goal ?" /tmp/dev.log | grep -v "not made yet\|was not admitted" | cut -c1-330 | head -${1:-30}
grep -c "^fn.*: proved" /tmp/dev.log; grep -c "not made yet" /tmp/dev.log; grep real /tmp/dev.log
