import re,sys
t=open(sys.argv[1]).read()
# drop main-like functions
def drop(name):
    global t
    i=t.find(name)
    if i<0: return
    s=t.rfind('\ndefine',0,i)
    e=t.find('\n}\n',s)+3
    t=t[:s+1]+t[e:]
for m in re.findall(r'\ndefine [^\n]*@(main|"[^"]*::main")\(',t):
    drop('@'+m+'(') 
sig={
'cribstork_convert':('s s i p sm sm sm p').split(),
'cribstork_finish':('d s d d sm p').split(),
'cribstork_convert_finished':('s s i p sm sm sm d d sm p').split(),
'cribstork_choose_widths':('s sm p').split(),
'cribstork_decrypt':('s i sm p').split(),
}
o=''
for f,ks in sig.items():
    ps=[];body='';args=[]
    for j,k in enumerate(ks):
        if k in('s','sm'):
            ps+= [f'ptr %p{j}',f'i64 %l{j}']
            body+=f'  %f{j} = alloca [16 x i8], align 8\n'
        elif k=='i': ps.append(f'i64 %p{j}')
        elif k=='d': ps.append(f'double %p{j}')
        else: ps.append(f'ptr %p{j}')
    for j,k in enumerate(ks):
        if k in('s','sm'):
            body+=f'  store ptr %p{j}, ptr %f{j}, align 8\n  %g{j} = getelementptr i8, ptr %f{j}, i64 8\n  store i64 %l{j}, ptr %g{j}, align 8\n'
            args.append(f'ptr %f{j}')
        elif k=='i': args.append(f'i64 %p{j}')
        elif k=='d': args.append(f'double %p{j}')
        else: args.append(f'ptr %p{j}')
    o+=f'define i64 @{f}({", ".join(ps)}) {{\nstart:\n{body}  %r = call i64 @"board::{f}"({", ".join(args)})\n  ret i64 %r\n}}\n'
i=t.find('\nattributes')
t=t[:i]+'\n'+o+t[i:]
open(sys.argv[2],'w').write(t)
