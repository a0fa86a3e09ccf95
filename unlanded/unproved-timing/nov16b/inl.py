import re,sys
src,dst=sys.argv[1:3]
keep=set(sys.argv[3].split(',')) if len(sys.argv)>3 else set()
t=open(src).read()
def f(m):
    name=m.group(2)
    if not name.startswith(('type1','type2','bank','charstring','binary64','geometry','type1_to_type2')): return m.group(0)
    return m.group(1)+'"'+name+'"'+m.group(3)+(' noinline' if name in keep else ' alwaysinline')+' #0 {'
t=re.sub(r'(define internal [^\n]*?@)"([^"]+)"(\([^\n]*\)) #0 \{',f,t)
open(dst,'w').write(t)
