import re
p='gen.py'; s=open(p).read()
s=s.replace("'Z':'Matrix',","'Z':'Matrix','F':'Fold',").replace("HOME={'T':'type1','Z':'geometry',","HOME={'T':'type1','Z':'geometry','F':'folding',").replace('machs("ZKRGQ")','machs("ZFKRGQ")').replace('machZ, machK','machZ, machF, machK')
open(p,'w').write(s)
p='mk5.py'; s=open(p).read()
s=s.replace('idn=Boo("identity"); msk','fld=Rec("fold","F","Fold"); msk').replace('mat,idn,','fld,')
# contracts
s=s.replace("""req=lambda vs:"(%s ≡ isIdentity %s) × Counted %s"%(vs['identity']['v'],vs['m']['v'],vs['c']['v'])""","""req=lambda vs:"Counted %s"%vs['c']['v']""")
s=s.replace("× ((%s ≡ isIdentity %s) × Counted %s)\"","× Counted %s\"").replace("vs['identity']['v'],vs['m']['v'],","").replace("vs['m']['v']","vs['fold']['v']")
s=s.replace('"(%s ≡ isIdentity %s) × (%s + %s ≤ 96)"','"%s + %s ≤ 96"').replace('× ((%s ≡ isIdentity %s) × (%s + %s ≤ 96))"','× (%s + %s ≤ 96)"')
s=s.replace('× ((%s ≡ isIdentity %s) × All (OfCommand Good) (commandIn (%s .now) %s)))"','× All (OfCommand Good) (commandIn (%s .now) %s))"')
s=s.replace('× ((%s ≡ isIdentity %s) × ((%s + %s ≤ 96) × (length %s ≡ 96)))"','× ((%s + %s ≤ 96) × (length %s ≡ 96))"')
assert 'isIdentity %s' not in s
s=s.replace('Folding.{isIdentity, foldedStems}','Folding.{foldedStems}')
# bodies
i=s.index('# ---- collect_group\n')
head,body=s[:i],s[i:]
T=5
def dn(n): n=int(n); assert n!=T,n; return str(n-1 if n>T else n)
body=re.sub(r'\b(\w\.set|\w\.ld|\w\.rewrite|lands|lands_num|lands_unit)\((\d+)',lambda m:m.group(1)+'('+dn(m.group(2)),body)
body=re.sub(r'(advance\(w,)(\d+)',lambda m:m.group(1)+dn(m.group(2)),body)
body=re.sub(r'(live\[)(\d+)',lambda m:m.group(1)+dn(m.group(2)),body)
def ag(m):
    return m.group(1)+re.sub(r'\d+',lambda k:dn(k.group(0)),m.group(2))+')'
body=re.sub(r'(w\.again\((?:\w+|Ref\("mask","sa","bool","Bool",96\)),)([\d,]+)\)',ag,body)
# call operand lists and destination
def cl(m):
    l=m.group(1).split(','); l=[x for x in l if x!='5']
    return '],['+','.join(dn(x) for x in l)+'],'+dn(m.group(2))+',lands'
body=re.sub(r'\],\[([\d,]+)\],(\d+),lands',cl,body)
body=body.replace('"tZt","tyBool"','"tFt"',)
body=body.replace('("m","m-fits"),("identity",None)','("fold","fold-fits")')
body=re.sub(r'(?<![\w"\'])m(?= (?:\(records|\(r2|\(xcommands|first|c ))','fold',body)
open('/tmp/body.txt','w').write(body)
s=head+body
s=s.replace('"TZK"','"TFK"').replace('"TZR"','"TFR"').replace(',"TZ",',',"TF",')
open(p,'w').write(s)
