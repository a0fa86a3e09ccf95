cd $WORK/h; D="/usr/share/fonts/type1/urw-base35 /usr/share/texmf/fonts/type1/public/lm /usr/share/texmf/fonts/type1/public/tex-gyre"
for i in 1 2 3; do for b in base gate; do taskset -c 1 ./bench-$b --rounds 5 $D > ff.$b.$i 2>/dev/null & p=$!; while [ "$(grep -c 'generated, ' ff.$b.$i 2>/dev/null)" -lt 8 ] && [ "$(grep -c '^| [a-z]*-\?[a-z0-9]* ([0-9]* fonts)' ff.$b.$i)" -lt 18 ] && kill -0 $p 2>/dev/null; do sleep 1; done; sleep 1; kill $p 2>/dev/null; wait $p 2>/dev/null; done; done
taskset -c 1 ./bench-gate --strict --rounds 7 $D > ff.strict.1 2>/dev/null
taskset -c 1 ./bench-gate --strict --rounds 7 $D > ff.strict.2 2>/dev/null
echo done > ff.done
