import os
def crate(name,k,arrays,kind):
    d=f'$WORK/lab/r/crates/{name}/src'; os.makedirs(d,exist_ok=True)
    A=''.join(f', a{i}: &mut [f64; 256]' for i in range(arrays)); 
    if kind=='ref': A=''.join(f', a{i}: &[f64; 256]' for i in range(arrays)); 
    if kind=='slice': A=''.join(f', a{i}: &mut [f64]' for i in range(arrays)); 
    AP=''.join((f', {{ a{i} }}' if kind=='move' else f', a{i}') for i in range(arrays))
    t='struct St {\n    f0: usize,\n    f1: usize,\n}\nstruct Ran {\n    st: St,\n    flow: u8,\n}\n'
    t+='fn made(st: St, flow: u8) -> Ran {\n    Ran { st, flow }\n}\n'
    t+=f'fn callee(x: f64, y: f64, room: usize, st: St{A}) -> Ran {{\n    made(st, 0)\n}}\n'
    t+=f'fn plain(op: u16, room: usize, st: St{A}) -> Ran {{\n    match op {{\n'
    for i in range(k): t+=f'        {i} => {{\n            return callee(0.0, 1.0, room, st{AP});\n        }}\n'
    t+='        _ => {\n            return made(st, 6);\n        }\n    }\n}\n'
    open(d+'/lib.rt','w').write(t)
L=[('m10',10,6,'move'),('s10',10,6,'slice'),('r10',10,6,'ref')]
for l in L: crate(*l)
open('$WORK/lab/r/crates.txt','w').write(''.join(l[0]+':\n' for l in L))
