import re,sys
src,dst,names=sys.argv[1:4]
names=set(names.split(','))
t=open(src).read()
def f(m):
    name=m.group(2)
    if name in names: return m.group(1)+'"'+name+'"'+m.group(3)+' alwaysinline #0 {'
    return m.group(0)
t=re.sub(r'(define internal [^\n]*?@)"([^"]+)"(\([^\n]*\)) #0 \{',f,t)
open(dst,'w').write(t)
