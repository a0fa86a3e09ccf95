#!/bin/bash
# g.sh BASE NAME PATTERN [KEEP]
cd $WORK/tc; python3 grp.py $1.o.w.ll $2.ll "$3" "${4:-none}" && ./cc.sh $2.ll $2.o; ./l.sh $2
