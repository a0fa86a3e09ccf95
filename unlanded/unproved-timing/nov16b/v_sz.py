import sys,shutil
# sizes: ops ps stems(total incl last)
o,p,e=map(int,sys.argv[1:4])
for c in ['type1','hints','othersubrs']:
    f=f'$WORK/t/crates.l0/{c}/src/lib.rt'
    t=open(f).read()
    t=t.replace('ps: &mut [f64; 256]','ps: &mut [f64; %d]'%p).replace('let mut ps = [0.0; 256]','let mut ps = [0.0; %d]'%p).replace('stack: &mut [f64; 256]','stack: &mut [f64; %d]'%p)
    t=t.replace('ps: &[f64; 256]','ps: &[f64; %d]'%p)
    t=t.replace('[f64; 256]','[f64; %d]'%o).replace('[f64; 1024]','[f64; %d]'%(2*e)).replace('[bool; 512]','[bool; %d]'%e).replace('[0.0; 256]','[0.0; %d]'%o).replace('[0.0; 1024]','[0.0; %d]'%(2*e)).replace('[false; 512]','[false; %d]'%e)
    t=t.replace('const LAST: usize = 256','const LAST: usize = %d'%(e//2)).replace('const MOST: usize = 256','const MOST: usize = %d'%(e//2 if c=='hints' else p))
    t=t.replace('if n == 256 {','if n == %d {'%min(o,p,e//2) )
    open(f'$WORK/t/crates/{c}/src/lib.rt','w').write(t)
