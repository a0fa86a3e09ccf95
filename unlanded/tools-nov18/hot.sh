valgrind --tool=callgrind --dump-instr=yes --callgrind-out-file=/tmp/ci.$1 $WORK/h/bench-$1 --ours-only /usr/share/fonts/type1/urw-base35/C059-Bold.t1 >/dev/null 2>&1; python3 $WORK/h/hot.py $1 $2
