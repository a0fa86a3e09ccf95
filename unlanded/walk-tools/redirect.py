import re,sys,os,glob
C=sys.argv[1] if len(sys.argv)>1 else '$WORK/h/me/crates/'
OUT={n:'Outline' for n in "pick plusZero origin Command move line curve flex Group stemOf zeroStem sameStem isIn sameStems lastIs stemCount".split()}
STO={n:'Store' for n in "entryWords word coordinate pointIn commandIn drawnIn groupIn groupsIn pointCommand".split()}
FROM={'State':set("Command move line curve flex Group plusZero origin sameStem isIn sameStems lastIs stemCount".split()),
      'Run':set("pick stemOf".split()),'Memory':set("word coordinate pointIn commandIn drawnIn groupIn groupsIn pointCommand".split()),'Small':{'zeroStem'}}
DEST=dict(OUT,**STO)
pat=re.compile(r"^(ghost )?use (Rattle·type1(?:·specs\.specs|\.specs))\.(State|Run|Memory|Small)\.\{(.*)\}(;?)$")
for f in glob.glob(C+'**/*',recursive=True):
    if not (f.endswith('.antt') or f.endswith('.rt')): continue
    if '/outline/' in f or '/target/' in f: continue
    s=open(f).read(); o=s
    s=re.sub(r"Rattle·type1(?:·specs\.specs|\.specs)\.declared\.Stem\b","Rattle·outline.specs.declared.Stem",s)
    s=re.sub(r"Rattle·type1(?:·proofs\.proofs|\.proofs)\.Stem\b(?!s)","Rattle·outline.proofs.Stem",s)
    lines=s.split("\n"); add={}; out=[]; first=None
    for l in lines:
        m=pat.match(l)
        if not m: out.append(l); continue
        g,mod,sub,names,semi=m.groups()
        keep=[]
        for n in [x.strip() for x in names.split(",")]:
            base=n.split(" as ")[0]
            if base in FROM[sub]: add.setdefault(DEST[base],[]).append(n)
            else: keep.append(n)
        if first is None: first=len(out)
        if keep: out.append("%suse %s.%s.{%s}%s"%(g or "",mod,sub,", ".join(keep),semi))
    if add:
        ins=[]
        g="ghost " if f.endswith('.rt') else ""; semi=";" if f.endswith('.rt') else ""
        for d in ('Outline','Store'):
            if d in add: ins.append("%suse Rattle·outline.specs.%s.{%s}%s"%(g,d,", ".join(dict.fromkeys(add[d])),semi))
        out[first:first]=ins
    s="\n".join(out)
    if s!=o: open(f,'w').write(s)
