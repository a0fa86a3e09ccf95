import re,sys,subprocess
s=subprocess.run(['rt','mir','type1'],capture_output=True,text=True,cwd='.').stdout
s=s.replace('lnil','[]').replace('(tyNamed (pair "type1::Stem" []))','STEM').replace('(lcons (pair "type1::Stem" (fields (tcons tyBool (tcons (tyFloat 64) (tcons (tyFloat 64) tnil))))) [])','')
for part in s.split('(lcons (fn-def')[1:]:
    if any(('"type1::%s"'%a) in part[:40] for a in sys.argv[1:]):
        part=re.sub(r'\(place (\d+) \[\]\)',r'_\1',part)
        print(re.sub(r'\((seq|loop|block|cond|call|local)',r'\n   (\1',part)); print()
