import re,sys
src,dst,pat=sys.argv[1:4]
t=open(src).read()
def f(m):
    name=m.group(2)
    if not re.search(pat,name): return m.group(0)
    return m.group(1)+'"'+name+'"'+m.group(3)+' noinline #0 {'
t=re.sub(r'(define internal [^\n]*?@)"([^"]+)"(\([^\n]*\)) #0 \{',f,t)
open(dst,'w').write(t)
