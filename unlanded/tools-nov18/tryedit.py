import sys,subprocess,re,pathlib
root=pathlib.Path(sys.argv[1]); crate=sys.argv[2]
for name in sys.argv[3:]:
    ed=(root/'crates'/crate/'must-fail'/(name+'.edit')).read_text()
    cur=None; saves={}
    lines=ed.split('\n'); i=0; f=None; old=None
    for ln in lines:
        if ln.startswith('file: '): f=root/'crates'/crate/ln[6:]
        elif ln.startswith('old: '): old=ln[5:]
        elif ln.startswith('new: '):
            t=f.read_text()
            if f not in saves: saves[f]=t
            assert t.count(old)==1,(name,old,t.count(old))
            f.write_text(t.replace(old,ln[5:]))
    r=subprocess.run(['rt','dev',crate],cwd=root,capture_output=True,text=True,errors='replace')
    errs=[l for l in (r.stdout+r.stderr).split('\n') if 'error' in l or 'not proved' in l]
    print('==',name); print('\n'.join(e[:230] for e in errs[:4]))
    for k,v in saves.items(): k.write_text(v)
