import re,sys
src,dst,pat,keep=sys.argv[1:5]
keep=set(keep.split(','))
t=open(src).read()
def f(m):
    name=m.group(2)
    if name in keep or not re.match(pat,name): return m.group(0)
    return m.group(1)+'"'+name+'"'+m.group(3)+' alwaysinline #0 {'
t=re.sub(r'(define internal [^\n]*?@)"([^"]+)"(\([^\n]*\)) #0 \{',f,t)
open(dst,'w').write(t)
