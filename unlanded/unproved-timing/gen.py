import os,sys
def fields(nf): return [f'f{i}: usize' for i in range(nf)]
def crate(name,nf,arrays,mode):
    d=f'$WORK/lab/r/crates/{name}/src'; os.makedirs(d,exist_ok=True)
    A=''.join(f', a{i}: &mut [f64; 256]' for i in range(arrays)); AP=''.join(f', a{i}' for i in range(arrays))
    if mode=='val':
        t='struct St {\n'+''.join(f'    {f},\n' for f in fields(nf))+'}\nstruct Ran {\n    st: St,\n    flow: u8,\n}\n'
        t+='fn made(st: St, flow: u8) -> Ran {\n    Ran { st, flow }\n}\n'
        t+='fn cleared(st: St) -> St {\n    let mut s = st;\n    s.f0 = 0;\n    s\n}\n'
        t+=f'fn callee(x: f64, y: f64, room: usize, st: St{A}) -> Ran {{\n    made(st, 0)\n}}\n'
        for k in range(4):
            t+=f'''fn caller{k}(room: usize, st: St, ops: &[f64; 256]{A}) -> Ran {{
    let n = st.f0;
    if n < 1 {{
        return made(st, 7);
    }}
    if n > 200 {{
        return made(st, 8);
    }}
    callee(0.0, ops[n], room, cleared(st){AP})
}}
'''
    else:
        t=f'fn callee(x: f64, y: f64, room: usize, st: &mut [usize; 16]{A}) -> u8 {{\n    0\n}}\n'
        for k in range(4):
            t+=f'''fn caller{k}(room: usize, st: &mut [usize; 16], ops: &[f64; 256]{A}) -> u8 {{
    let n = st[0];
    if n < 1 {{
        return 7;
    }}
    if n > 200 {{
        return 8;
    }}
    st[0] = 0;
    callee(0.0, ops[n], room, st{AP})
}}
'''
    open(d+'/lib.rt','w').write(t)
L=[('v15a3',15,3,'val'),('v3a3',3,3,'val'),('v15a0',15,0,'val'),('arr3',0,3,'arr'),('v8a3',8,3,'val')]
for l in L: crate(*l)
open('$WORK/lab/r/crates.txt','w').write(''.join(l[0]+':\n' for l in L))
