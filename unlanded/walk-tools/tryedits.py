import sys,os,shutil,subprocess,re
R='$WORK/h9'; T='$WORK/h9/../h9try'
labels=sys.argv[1:] or sorted(f[:-5] for f in os.listdir(R+'/crates/type1/must-fail'))
if not os.path.exists(T): shutil.copytree(R,T)
for l in labels:
    for d in ('src','specs','proofs'):
        shutil.rmtree(T+'/crates/type1/'+d); shutil.copytree(R+'/crates/type1/'+d,T+'/crates/type1/'+d)
    e=dict(x.split(': ',1) for x in open(R+'/crates/type1/must-fail/%s.edit'%l).read().rstrip('\n').split('\n'))
    p=T+'/crates/type1/'+e['file']; s=open(p).read(); print('==',l,'count',s.count(e['old']))
    open(p,'w').write(s.replace(e['old'],e['new'],1))
    o=subprocess.run(['timeout','300','rt','dev','type1','--allow-holes'],capture_output=True,text=True,cwd=T); o=o.stdout+o.stderr
    errs=[x for x in o.split('\n') if 'error' in x and 'was not admitted' not in x]
    for x in errs[:4]: print('   ',x[:420].replace('$WORK/h9/../h9try/crates/type1/',''))
    if not errs: print('   NO ERROR', [x[:120] for x in o.split('\n') if 'unsolved' in x][:3])
shutil.rmtree(T)
