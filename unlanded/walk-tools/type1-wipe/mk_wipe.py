import sys; sys.path.insert(0,'/tmp/hb_wt')
from mk_leaves import *
from prune import prune
D='$WORK/hb/crates/type1/proofs/'
clear=Fn("clear",[stems,Num("i","usize","w64")],"Nothing",lambda vs,zs:"%s ≡ set %s %s zeroStem"%(zs[0],vs['stems']['ys'],vs['i']['v']),req=lambda vs:"%s < length %s"%(vs['i']['v'],vs['stems']['ys']),result=Non())
# Callees: clear for fill and blank
p=D+'Callees.antt'; t=open(p).read()
a=t.index("use %sfill as fill-f"%P); b=t.index("use %ssum as sum-f"%P); t=t[:a]+"use %sclear as clear-f\nuse %sclear.Symbol.{name as #type1·clear}\n"%(P,P)+t[b:]
a=t.index("  abbrev pub FillC"); b=t.index("  abbrev pub SumC"); t=t[:a]+contract(clear)+t[b:]
a=t.index("  pub blank-as"); b=t.index("  pub sum-as"); t=t[:a]+clear.as_lemma().lstrip("\n").rstrip("\n")+"\n\n"+t[b:]
a=t.index("  pub fill-as"); t=t[:a].rstrip("\n")+"\n"
t=t.replace("{length, set, replicate}","{length, set}")
open(p,'w').write(t)
def forgets(w,live,N):
    for i in range(N):
        if i in w.live and i not in live: w.emit("forget ! %d refl $ "%w.p("_%d"%i))
def leaf(f,knowns,text,extra,imports,what,more=""):
    return "-- `type1::%s` meets its contract: a walk of its MIR, by hand. %s\n-- Assumes nothing.\n"%(f.name,what)+IMP+"use %sSmall.{zeroStem}\n"%SP+more+use_syms(knowns)+'''use %(P)s%(n)s.Key.{name as #type1·%(s)s}
use %(P)s%(n)s as f
use %(P)s%(n)s.Statement as stated
use %(P)s%(n)s.Code as code
use %(P)s%(n)s.Code.Mir as text
use %(P)sCallees.{%(cs)s}
'''%dict(P=P,n=f.name,s=f.sym,cs=", ".join([g.C for g in knowns]+[g.sym+"-as" for g in knowns]))+("use %sStored.{%s}\n"%(P,imports) if imports else "")+frame(f)+"  module _ %s%s where\n"%(known_binders(knowns),extra)+text+closing(f,knowns)
LOC=["tyUnit","sliceTy (tS (named 0))","word","word","tyBool","tyUnit","tS erased","sliceTy (tS erased)"]
HELD="(i < 2 ^ 64) × ((i ≤ %s) × ((length zs ≡ mstems) × (zs ≡ paste ysstems %s %s i)))"
WS="(replicate mstems zeroStem)"
def test(w,eq):
    w.set(3,"(of-opd ! %s)"%w.fldp(1,1),"(tt, record { fits = fitstems .0 })")
    w.set(4,"(bin ! %s %s tt)"%(w.ld(2),w.ld(3)),"(tt, tt)")
    w.rewrite(4,"tyBool","t : Bool","(vbool t)",eq)
def turn(w,ls,EN,live,N):
    test(w,"so-is (ltb i mstems) (lt→ltb i mstems small)")
    w.emit("stays ! %s $ "%w.ld(4))
    w.again(stems,1,6,7)
    w.call(clear,{'stems':'stems'},[("i","held .0")],[7,2],5,lands_unit(5),"(subst (λ (k : ℕ). i < k) (sym (held .1 .1 .0)) small)")
    NF="(next-fits i mstems small (fitstems .0))"
    w.emit("\n        assigns-last ! (bin ! %s (lit ! tt) (record { fits = %s })) (from ! (stop !)) (store ! %d refl (tt, record { fits = %s })) $ "%(w.ld(2),NF,w.p("_2"),NF))
    forgets(w,live,N); u=w.cur['stems']
    w.emit("keep ! %s $ by ! (go (i + 1) %s (grows i) (%s, (omega (arith, small), (%s, stored-one ysstems zeroStem 0 %s i i zs %s zeroStem (omega (arith, small)) (subst (λ (k : ℕ). i < k) (sym (length-replicate mstems zeroStem)) small) (omega arith) (held .1 .1 .1) (sym (getD-replicate mstems i zeroStem zeroStem small)) e1))))"%(lst(w.p(x) for x in w.canon()),u['ys'],NF,u['e'],WS,u['ys']))
    return w.text()
def ends(e,ls,EN,live,N):
    test(e,"over")
    e.emit("leaves-loop ! %s $ exec ! C Λ %s text.t-3 (atRet %s Post) $ "%(e.ld(4),EN,EN))
    e.set(0,"(of-opd ! (unit-lit !))","(tt, tt)")
    e.leave("tt","tt","all-stored ysstems 0 %s i mstems zs over (held .1 .0) (held .1 .1 .1) ∙ paste-all ysstems %s mstems refl (length-replicate mstems zeroStem)"%(WS,WS),within=None)
    return e.text()
vs=wipe.stdvs(); live={1:wipe.vals(vs)[0],2:"vint w64 i"}
begin_=lambda b: b.set(2,"(of-opd ! (lit ! tt))","(tt, record { fits = lit< tt })")
text=looped(wipe,LOC,[("i","ℕ"),("zs","List Stem")],live,{'stems':'zs'},{'stems':'held .1 .1 .0'},"mstems",HELD%("mstems","0",WS),lambda ls,EN: loops_text(ls,EN,"mstems","0 ysstems","(lit< tt, (omega arith, (refl, paste-zero ysstems 0 %s)))"%WS),begin_,turn,ends,None,None,None,"t-3")
M1="use lib.ListN.{getD-replicate, length-replicate}\nuse lib.Seq.{paste-zero}\n"
t=leaf(wipe,(clear,),text,"","stored-one, all-stored, paste-all, next-fits, grows","Each turn of its loop lends the records to `clear` and has them back.",M1)
open(D+'wipe/Proof.antt','w').write(t); prune(D+'wipe/Proof.antt')
