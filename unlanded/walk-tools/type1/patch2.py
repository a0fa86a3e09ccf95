p='mk5.py'; s=open(p).read()
i=s.index('# ---- collect_group\n'); j=s.index('# ---- write_all')
a,b,c=s[:i],s[i:j],s[j:]
def R(t,o,n,k=1):
    assert t.count(o)==k,(o,t.count(o)); return t.replace(o,n)
b=R(b,'"(need .1 .0, held .1 .1 .1 .1 .1 .1 .1)"','"(held .1 .1 .1 .1 .1 .1 .1)"')
b=R(b,'(folded-none m) (need .1 .1)','(folded-none fold) (need .1)')
b=R(b,'(folded-none m)','(folded-none fold)')
b=R(b,'(need .1 .0, held .1 .1 .1 .1 .1 .1 .1))"','held .1 .1 .1 .1 .1 .1 .1)"')
b=R(b,'ysstems) (need .1 .1)','ysstems) (need .1)')
c=R(c,'(need .1 .0, need .1 .1 .0))"%H[3]','need .1 .0)"%H[3]')
c=R(c,'(need .1 .0, need .0 .finite i small)))"','need .0 .finite i small))"')
c=c.replace('need .1 .1 .0','need .1 .0').replace('need .1 .1 .1','need .1 .1')
open(p,'w').write(a+b+c)
p='mk6.py'; s=open(p).read()
i=s.index('is_identity=Fn('); j=s.index('count_groups=Fn(')
s=s[:i]+'''fold_new=Fn("Fold_new",[mat],"F.the-row",lambda vs,zs:"r ≡ foldOf %s"%vs['m']['v'],result=Rec("result","F","Fold"),crate="folding")
fold_new.sym="Fold·new"; fold_new.key="#folding·Fold·new"; fold_new.mod="Rattle·folding.proofs.Fold.new"; fold_new.C="FoldNewC"
'''+s[j:]
i=s.index('end_program=Fn('); j=s.index('first_number=Fn(')
s=s[:i]+'''end_program=Fn("end_program",[PLAN,INTR,wri,commands,fld,out],"G.the-row",lambda vs,zs:"Answers (settles (%s .number) (finiteList (foldedList %s (drawnIn (%s .entries) (%s .now)))) (writes (%s .width) (%s .ran) (resumedAll false [] %s %s []))) (length %s) r %s"%(vs['p']['v'],vs['fold']['v'],vs['ri']['v'],vs['commands']['x'],vs['p']['v'],vs['ri']['v'],vs['wr']['v'],vs['out']['ys'],vs['out']['ys'],pz(zs[5])),
    req=lambda vs:"(14 * %s .entries ≤ length (%s .now)) × ((e : ℕ) → e < %s .entries → All (OfCommand Good) (commandIn (%s .now) e))"%(vs['ri']['v'],vs['commands']['x'],vs['ri']['v'],vs['commands']['x']),result=GLY)
'''+s[j:]
s=s.replace('CALLEES=(is_identity,','CALLEES=(fold_new,').replace('convert_run,identity_','convert_run,convert_stored,identity_')
s=R(s,'w.call(is_identity,{},[("m","m-fits")],[3],10,lands_bool(10))','w.call(fold_new,{},[("m","m-fits")],[3],10,lands(10,"F","tFt"))')
s=R(s,'leaf6(f,(is_identity,','leaf6(f,(fold_new,')
s=s.replace('("m","m-fits"),("r1",None)','("r1","mineF r1 w1 is1")').replace('ent,3,10,','ent,10,').replace('39,3,10,41','39,10,41')
s=R(s,'"(need .0, (e1, few-none r2 r3 e3))"','"(need .0, few-none r2 r3 e3)"')
s=R(s,'(sym (e4 .0)) (need .0), (e1, (e5 .few, need .1 .mask-len)))"','(sym (e4 .0)) (need .0), (e5 .few, need .1 .mask-len))"')
s=R(s,'"(need .0 .words, (e1, need .0 .finite))"','"(need .0 .words, need .0 .finite)"')
s=R(s,'run-answers number m ri','run-answers number m r1 e1 ri')
s=s.replace('"TZKRGIQ"','"TZFKRGIQ"')
s=s.replace('use Rattle·folding.specs.Folding.{foldedList, finiteList}','use Rattle·folding.specs.Folding.{foldOf, foldedList, finiteList}')
h=open('mk_h4.py').read(); cs=h[h.index('convert_stored=Fn('):h.index("USES='''")]
s=R(s,'OUTC=lambda vs:',cs+'OUTC=lambda vs:')
s=s.replace('mk_convert_run(); mk_entry(); mk_plain()','mk_convert_run()')
open(p,'w').write(s)
