import sys,re,subprocess
b=sys.argv[1]
names={}; cnt={}; cur=None; last=0; skip=0
for line in open('/tmp/ci.'+b,errors='replace'):
    line=line.rstrip('\n')
    m=re.match(r'fn=\((\d+)\)(?: (.*))?',line)
    if m:
        if m.group(2): names[m.group(1)]=m.group(2)
        cur=names.get(m.group(1)); continue
    if line.startswith('cfn='):
        m=re.match(r'cfn=\((\d+)\)(?: (.*))?',line)
        if m.group(2): names[m.group(1)]=m.group(2)
        continue
    if line.startswith('calls='): skip=1; continue
    m=re.match(r'^(0x[0-9a-f]+|\+\d+|-\d+|\*)\s+(\S+)\s+(\d+)',line)
    if m:
        a=m.group(1)
        if a.startswith('0x'): last=int(a,16)
        elif a!='*': last+=int(a)
        if skip: skip=0; continue
        if cur and 'run::run' in cur: cnt[last]=cnt.get(last,0)+int(m.group(3))
d=subprocess.run(['objdump','-d','--no-show-raw-insn','$WORK/h/bench-'+b],capture_output=True,text=True).stdout
ins={}
for l in d.split('\n'):
    m=re.match(r'^\s+([0-9a-f]+):\s+(.*)$',l)
    if m: ins[int(m.group(1),16)]=m.group(2)
lo=max(cnt.values())
for a in sorted(cnt):
    if cnt[a]>lo*float(sys.argv[2]): print('%8d %x %s'%(cnt[a],a,ins.get(a,'?')))
