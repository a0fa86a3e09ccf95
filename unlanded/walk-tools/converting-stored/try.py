import sys,os,shutil,subprocess
R,crate=sys.argv[1],sys.argv[2]
for l in sys.argv[3:]:
    t=open('%s/crates/%s/must-fail/%s.edit'%(R,crate,l)).read(); f='';saved={}
    for x in t.split('\n'):
        if x.startswith('file: '): f='%s/crates/%s/%s'%(R,crate,x[6:])
        if x.startswith('old: '): old=x[5:]
        if x.startswith('new:'):
            s=open(f).read(); saved.setdefault(f,s); assert s.count(old)==1,(l,s.count(old)); open(f,'w').write(s.replace(old,x[5:]))
    o=subprocess.run(['rt','dev',crate],capture_output=True,text=True,cwd=R); o=o.stdout+o.stderr
    errs=[e for e in o.split('\n') if ': error' in e or 'unsolved' in e]
    print('==',l, 'PROVED' if 'logic=proved' in o.split('\n')[-2:][0] or '\nlogic=proved functions' in o and not errs else 'refused'); 
    for e in [e for e in errs if 'was not admitted' not in e][:3]: print('   ',e.replace(R,'')[:260])
    for f,s in saved.items(): open(f,'w').write(s)
