import sys; sys.path.insert(0,'$WORK/wt5')
from gen import *
from prune import prune
D='$WORK/wt5/r/crates/type1_to_type2/proofs/'
S1="Rattle·type1.specs."
stems=Ref("stems","sl","T.the-row","Stem")
commands=Ref("commands","shr","u64","ℕ")
acrossM=Ref("across","arr","f64","Float",192); uprightM=Ref("upright","arr","f64","Float",192)
acrossS=Ref("across","sa","f64","Float",192); uprightS=Ref("upright","sa","f64","Float",192)
maskM=Ref("mask","arr","bool","Bool",96); maskS=Ref("mask","sa","bool","Bool",96)
out=Ref("out","sl","u8","ℕ")
usz=lambda n: Num(n,"usize","w64")
COL=Rec("result","K","Collected"); WRI=Rec("result","R","Writer")
mat=Rec("m","Z","Matrix"); col=Rec("c","K","Collected"); stem=Rec("s","T","Stem"); wri=Rec("wr","R","Writer")
idn=Boo("identity"); msk=Boo("masked")
def pz(x): return "(%s)"%x if " " in x and not x.startswith("(") else x
sum_=Fn("sum",[usz("a"),usz("b")],"usize",lambda vs,zs:"r ≡ %s + %s"%(vs['a']['v'],vs['b']['v']),req=lambda vs:"%s + %s < 18446744073709551616"%(vs['a']['v'],vs['b']['v']),result=usz("result"))
stem_from=Fn("stem_from",[stems,usz("i")],"T.the-row",lambda vs,zs:"(r ≡ getD %s %s zeroStem) × (%s ≡ %s)"%(vs['stems']['ys'],vs['i']['v'],zs[0],vs['stems']['ys']),req=lambda vs:"%s < length %s"%(vs['i']['v'],vs['stems']['ys']),result=Rec("result","T","Stem"))
first_of=Fn("first_of",[commands,usz("e")],"usize",lambda vs,zs:"r ≡ firstOf (%s .now) %s"%(vs['commands']['x'],vs['e']['v']),req=lambda vs:"14 * %s + 14 ≤ length (%s .now)"%(vs['e']['v'],vs['commands']['x']),result=usz("result"))
count_of=Fn("count_of",[commands,usz("e")],"usize",lambda vs,zs:"r ≡ countOf (%s .now) %s"%(vs['commands']['x'],vs['e']['v']),req=lambda vs:"14 * %s + 14 ≤ length (%s .now)"%(vs['e']['v'],vs['commands']['x']),result=usz("result"))
def G(g,vs,r,ta,tu): return "Gathers %s %s %s %s %s %s %s"%(g,vs['c']['v'],vs['across']['ys'],vs['upright']['ys'],r,pz(ta),pz(tu))
collect_stem=Fn("collect_stem",[stem,mat,idn,col,acrossM,uprightM],"K.the-row",lambda vs,zs:G("(foldedStems %s (%s ∷ []))"%(vs['m']['v'],vs['s']['v']),vs,"r",zs[4],zs[5]),req=lambda vs:"(%s ≡ isIdentity %s) × Counted %s"%(vs['identity']['v'],vs['m']['v'],vs['c']['v']),result=COL)
collect_group=Fn("collect_group",[stems,usz("first"),usz("n"),mat,idn,col,acrossM,uprightM],"K.the-row",
    lambda vs,zs:"(%s ≡ %s) × %s"%(zs[0],vs['stems']['ys'],G("(foldedStems %s (records %s %s %s))"%(vs['m']['v'],vs['first']['v'],vs['n']['v'],vs['stems']['ys']),vs,"r",zs[6],zs[7])),
    req=lambda vs:"(%s + %s ≤ length %s) × ((%s ≡ isIdentity %s) × Counted %s)"%(vs['first']['v'],vs['n']['v'],vs['stems']['ys'],vs['identity']['v'],vs['m']['v'],vs['c']['v']),result=COL)
collect_all=Fn("collect_all",[stems,commands,usz("entries"),mat,idn,col,acrossM,uprightM],"K.the-row",
    lambda vs,zs:"(%s ≡ %s) × %s"%(zs[0],vs['stems']['ys'],G("(stemsTo %s (%s .now) %s %s)"%(vs['m']['v'],vs['commands']['x'],vs['stems']['ys'],vs['entries']['v']),vs,"r",zs[6],zs[7])),
    req=lambda vs:"Stored %s (%s .now) %s × ((%s ≡ isIdentity %s) × Counted %s)"%(vs['entries']['v'],vs['commands']['x'],vs['stems']['ys'],vs['identity']['v'],vs['m']['v'],vs['c']['v']),result=COL)
def MK(g,vs,m0,m1): return "Marks %s %s %s (%s .now) (%s .now) %s %s"%(g,vs['na']['v'],vs['nu']['v'],vs['across']['x'],vs['upright']['x'],m0,pz(m1))
mark_stem=Fn("mark_stem",[stem,mat,idn,usz("na"),usz("nu"),acrossS,uprightS,maskM],"Nothing",lambda vs,zs:MK("(foldedStems %s (%s ∷ []))"%(vs['m']['v'],vs['s']['v']),vs,vs['mask']['ys'],zs[7]),req=lambda vs:"(%s ≡ isIdentity %s) × (%s + %s ≤ 96)"%(vs['identity']['v'],vs['m']['v'],vs['na']['v'],vs['nu']['v']),result=Non())
mark_group=Fn("mark_group",[stems,usz("first"),usz("n"),mat,idn,usz("na"),usz("nu"),acrossS,uprightS,maskM],"Nothing",
    lambda vs,zs:"(%s ≡ %s) × %s"%(zs[0],vs['stems']['ys'],MK("(foldedStems %s (records %s %s %s))"%(vs['m']['v'],vs['first']['v'],vs['n']['v'],vs['stems']['ys']),vs,vs['mask']['ys'],zs[9])),
    req=lambda vs:"(%s + %s ≤ length %s) × ((%s ≡ isIdentity %s) × (%s + %s ≤ 96))"%(vs['first']['v'],vs['n']['v'],vs['stems']['ys'],vs['identity']['v'],vs['m']['v'],vs['na']['v'],vs['nu']['v']),result=Non())
clear_mask=Fn("clear_mask",[maskM],"Nothing",lambda vs,zs:"length %s ≡ 96 → %s ≡ replicate 96 false"%(vs['mask']['ys'],zs[0]),result=Non())
write_entry=Fn("write_entry",[commands,usz("e"),mat,idn,msk,usz("n"),maskS,wri,out],"R.the-row",
    lambda vs,zs:"Writes %s %s (%s .now) %s %s (%s .now) %s %s r %s"%(vs['masked']['v'],vs['m']['v'],vs['commands']['x'],vs['e']['v'],vs['n']['v'],vs['mask']['x'],vs["wr"]["v"],vs['out']['ys'],pz(zs[8])),
    req=lambda vs:"(14 * %s + 14 ≤ length (%s .now)) × (((%s ≤ 96) × (%s ≤ length (%s .now))) × ((%s ≡ isIdentity %s) × All (OfCommand Good) (commandIn (%s .now) %s)))"%(vs['e']['v'],vs['commands']['x'],vs['n']['v'],vs['n']['v'],vs['mask']['x'],vs['identity']['v'],vs['m']['v'],vs['commands']['x'],vs['e']['v']),result=WRI)
def SS(vs): return "(both %s %s (%s .now) (%s .now))"%(vs['na']['v'],vs['nu']['v'],vs['across']['x'],vs['upright']['x'])
write_all=Fn("write_all",[stems,commands,usz("entries"),mat,idn,msk,usz("na"),usz("nu"),acrossS,uprightS,maskM,wri,out],"R.the-row",
    lambda vs,zs:"(%s ≡ %s) × (resumedAll %s %s r %s [] ≡ resumedAll %s %s %s %s (cmdsFrom %s (%s .now) %s 0 %s))"%(zs[0],vs['stems']['ys'],vs['masked']['v'],SS(vs),pz(zs[12]),vs['masked']['v'],SS(vs),vs["wr"]["v"],vs['out']['ys'],vs['m']['v'],vs['commands']['x'],vs['stems']['ys'],vs['entries']['v']),
    req=lambda vs:"Stored %s (%s .now) %s × ((%s ≡ isIdentity %s) × ((%s + %s ≤ 96) × (length %s ≡ 96)))"%(vs['entries']['v'],vs['commands']['x'],vs['stems']['ys'],vs['identity']['v'],vs['m']['v'],vs['na']['v'],vs['nu']['v'],vs['mask']['ys']),result=WRI)
DEFS='''use mathlib.Core.List.{_++_}
use lib.ListN.{getD}
use Prim.Native.Nat.{_*_}
use %sSmall.{zeroStem}
use %sSound.{All, OfCommand}
use %sMemory.{Good, commandIn}
use %sFolding.{isIdentity, foldedStems}
use %sStreaming.{resumedAll, Writes}
use %sCollecting.{Counted, firstOf, countOf}
use %sPasses.{records, Gathers, both, Marks, stemsTo, cmdsFrom, Stored}
'''%(S1,S1,S1,SP,SP,SP,SP)
IMP5=IMP+DEFS
def callees(name,fs,note):
    t=note+IMP5
    for f in fs: t+="use %s as %s-f\nuse %s.Symbol.{name as %s}\n"%(f.mod,f.sym,f.mod,f.key)
    t+="\n"+HEAD+"".join(contract(f) for f in fs)+HEAD.replace(" where"," (W : Given 𝓤 H A) (C : Calls 𝓤 H) where").rstrip("\n")
    for f in fs: t+=f.as_lemma()
    open(D+name+'.antt','w').write(t); prune(D+name+'.antt')
def leaf(f,knowns,recs,text,extra,laws,calls,note):
    os.makedirs(D+f.name,exist_ok=True)
    t="-- `type1_to_type2::%s` meets its contract: a walk of its MIR, by hand, with its loop. %s\n-- Assumes nothing.\n"%(f.name,note)+IMP5+use_syms(knowns)+'''use %(P)s%(n)s.Key.{name as #type1-to-type2·%(s)s}
use %(P)s%(n)s as f
use %(P)s%(n)s.Statement as stated
use %(P)s%(n)s.Code as code
use %(P)s%(n)s.Code.Mir as text
use %(P)s%(calls)s.{%(cs)s}
use %(L)sStored.{next-fits, grows, in-store, sum-fits}
use %(P)sPassLaws.{%(laws)s}
use %(P)sFolds.{folded-none}
'''%dict(P=P,L=L1,n=f.name,s=f.sym,calls=calls,cs=", ".join([g.C for g in knowns]+[g.sym+"-as" for g in knowns]),laws=laws)+typed(recs)+frame(f)+"  module _ %s%s where\n"%(known_binders(knowns),extra)+text+closing(f,knowns)
    open(D+f.name+'/Proof.antt','w').write(t); prune(D+f.name+'/Proof.antt')
def forgets(w,live,N):
    for i in range(N):
        if i in w.live and i not in live: w.emit("forget ! %d refl $ "%w.p("_%d"%i))
def advance(w,k,nf):
    w.emit("\n        assigns-last ! (bin ! %s (lit ! tt) (record { fits = %s })) (from ! (stop !)) (store ! %d refl (tt, record { fits = %s })) $ "%(w.ld(k),nf,w.p("_%d"%k),nf))
LAWS="folded-more, gathers-none, gathers-more, marks-none, marks-more, reached, entry-words, group-records, stems-more, writes-start, writes-more, few-marks, cleared-mask, both-length"
callees('PassCallees',(sum_,stem_from,first_of,count_of,collect_stem,collect_group,mark_stem,mark_group,clear_mask,write_entry),"-- What the functions that hold the stem store have of each callee, in the form that `Many.antt`'s `asks-all` takes. Assumes `Given`, and that the callee's entry meets its contract.\n")
# ---- collect_group
def mk_collect_group():
    f=collect_group
    LOC=["tKt","sliceTy (tS (named 0))","word","word","tZt","tyBool","tKt","tF (named 1) 192","tF (named 2) 192","tKt","word","tyBool","tTt","tS erased","sliceTy (tS erased)","word","tF erased 192","tF erased 192"]
    vs=f.stdvs(); live={k+1:x for k,x in enumerate(f.vals(vs))}; live[9]="machK got"; live[10]="vint w64 i"
    GG="Gathers (foldedStems m (records first i ysstems)) c ysacross ysupright got ta tu"
    HELD="(i < 2 ^ 64) × ((i ≤ n) × ((length zs ≡ mstems) × ((zs ≡ ysstems) × (Is K.the-row got (machK got ∷ []) × %s))))"%GG
    def turn(w,ls,EN,live,N):
        w.set(11,"(bin ! %s %s tt)"%(w.ld(10),w.ld(3)),"(tt, tt)")
        w.rewrite(11,"tyBool","t : Bool","(vbool t)","so-is (ltb i n) (lt→ltb i n small)")
        w.emit("stays ! %s $ "%w.ld(11))
        w.again(stems,1,13,14)
        w.call(sum_,{},[("first","first-fits"),("i","held .0")],[2,10],15,lands_num(15,"word","w64"),"(sum-fits first i n mstems small (need .0) (fitstems .0))")
        w.call(stem_from,{'stems':'stems'},[("r1","is1 .1")],[14,15],12,lands(12,"T","tTt"),"(subst (λ (k : ℕ). r1 < k) (sym (held .1 .1 .0)) (subst (λ (k : ℕ). k < mstems) (sym e1) (in-store first i n mstems small (need .0))))")
        w.again(acrossM,7,16); w.again(uprightM,8,17)
        w.call(collect_stem,{'across':'across','upright':'upright'},[("r2","mineT r2 w2 is2"),("m","m-fits"),("identity",None),("got","held .1 .1 .1 .1 .0")],[12,4,5,9,16,17],9,lands(9,"K","tKt"),"(need .1 .0, held .1 .1 .1 .1 .1 .1 .1)")
        NF="(next-fits i n small n-fits)"
        advance(w,10,NF); forgets(w,live,N); u=w.cur
        w.emit("keep ! %s $ by ! (go (i + 1) %s r3 %s %s (grows i) (%s, (omega (arith, small), (%s, (e2 .1 ∙ held .1 .1 .1 .0, (mineK r3 w3 is3, gathers-more c ysacross ysupright (foldedStems m (records first i ysstems)) (foldedStems m (r2 ∷ [])) (foldedStems m (records first (i + 1) ysstems)) got r3 ta tu %s %s (folded-more m first n ysstems i r1 r2 zs small (need .0) e1 (e2 .0) (held .1 .1 .1 .0)) (held .1 .1 .1 .1 .1) e3))))))"%(lst(w.p(x) for x in w.canon()),u['stems']['ys'],u['across']['ys'],u['upright']['ys'],NF,u['stems']['e'],u['across']['ys'],u['upright']['ys']))
        return w.text()
    def ends(e,ls,EN,live,N):
        e.set(11,"(bin ! %s %s tt)"%(e.ld(10),e.ld(3)),"(tt, tt)")
        e.rewrite(11,"tyBool","t : Bool","(vbool t)","over")
        e.emit("leaves-loop ! %s $ exec ! C Λ %s text.t-4 (atRet %s Post) $ "%(e.ld(11),EN,EN))
        e.set(0,"(of-opd ! %s)"%e.ld(9),"(typedK 𝓤 H A W got _ (held .1 .1 .1 .1 .0))")
        e.leave("got","(held .1 .1 .1 .1 .0)","(held .1 .1 .1 .0, subst (λ (k : ℕ). Gathers (foldedStems m (records first k ysstems)) c ysacross ysupright got ta tu) (reached i n over (held .1 .0)) (held .1 .1 .1 .1 .1))",within=None)
        return e.text()
    def begin(b):
        b.set(9,"(of-opd ! %s)"%b.ld(6),"(typedK 𝓤 H A W c _ c-fits)")
        b.set(10,"(of-opd ! (lit ! tt))","(tt, record { fits = lit< tt })")
    text=looped(f,LOC,[("i","ℕ"),("zs","List Stem"),("got","Collected"),("ta","List Float"),("tu","List Float")],live,{'stems':'zs','across':'ta','upright':'tu'},{'stems':'held .1 .1 .0'},"n",HELD,lambda ls,EN: loops_text(ls,EN,"n","0 ysstems c ysacross ysupright","(lit< tt, (omega arith, (refl, (refl, (c-fits, gathers-none c ysacross ysupright (foldedStems m (records first 0 ysstems)) (folded-none m) (need .1 .1))))))"),begin,turn,ends,None,None,None,"t-4")
    leaf(f,(sum_,stem_from,collect_stem),"TZK",text," (need : %s)"%f.req(vs),LAWS,"PassCallees","Each turn lends the records to `stem_from` and the tables to `collect_stem`, and has them back.")
# ---- mark_group
def mk_mark_group():
    f=mark_group
    LOC=["tyUnit","sliceTy (tS (named 0))","word","word","tZt","tyBool","word","word","sF (named 1) 192","sF (named 2) 192","tM (named 3)","word","tyBool","tyUnit","tTt","tS erased","sliceTy (tS erased)","word","tM erased"]
    vs=f.stdvs(); live={k+1:x for k,x in enumerate(f.vals(vs))}; live[11]="vint w64 i"
    MM="Marks (foldedStems m (records first %s ysstems)) na nu (xacross .now) (xupright .now) ysmask bits"
    HELD="(i < 2 ^ 64) × ((i ≤ n) × ((length zs ≡ mstems) × ((zs ≡ ysstems) × %s)))"%(MM%"i")
    def turn(w,ls,EN,live,N):
        w.set(12,"(bin ! %s %s tt)"%(w.ld(11),w.ld(3)),"(tt, tt)")
        w.rewrite(12,"tyBool","t : Bool","(vbool t)","so-is (ltb i n) (lt→ltb i n small)")
        w.emit("stays ! %s $ "%w.ld(12))
        w.again(stems,1,15,16)
        w.call(sum_,{},[("first","first-fits"),("i","held .0")],[2,11],17,lands_num(17,"word","w64"),"(sum-fits first i n mstems small (need .0) (fitstems .0))")
        w.call(stem_from,{'stems':'stems'},[("r1","is1 .1")],[16,17],14,lands(14,"T","tTt"),"(subst (λ (k : ℕ). r1 < k) (sym (held .1 .1 .0)) (subst (λ (k : ℕ). k < mstems) (sym e1) (in-store first i n mstems small (need .0))))")
        w.again(maskM,10,18)
        w.call(mark_stem,{'across':'across','upright':'upright','mask':'mask'},[("r2","mineT r2 w2 is2"),("m","m-fits"),("identity",None),("na","na-fits"),("nu","nu-fits")],[14,4,5,6,7,8,9,18],13,lands_unit(13),"(need .1)")
        NF="(next-fits i n small n-fits)"
        advance(w,11,NF); forgets(w,live,N); u=w.cur
        w.emit("keep ! %s $ by ! (go (i + 1) %s %s (grows i) (%s, (omega (arith, small), (%s, (e2 .1 ∙ held .1 .1 .1 .0, marks-more na nu (xacross .now) (xupright .now) (foldedStems m (records first i ysstems)) (foldedStems m (r2 ∷ [])) (foldedStems m (records first (i + 1) ysstems)) ysmask bits %s (folded-more m first n ysstems i r1 r2 zs small (need .0) e1 (e2 .0) (held .1 .1 .1 .0)) (held .1 .1 .1 .1) e3)))))"%(lst(w.p(x) for x in w.canon()),u['stems']['ys'],u['mask']['ys'],NF,u['stems']['e'],u['mask']['ys']))
        return w.text()
    def ends(e,ls,EN,live,N):
        e.set(12,"(bin ! %s %s tt)"%(e.ld(11),e.ld(3)),"(tt, tt)")
        e.rewrite(12,"tyBool","t : Bool","(vbool t)","over")
        e.emit("leaves-loop ! %s $ exec ! C Λ %s text.t-3 (atRet %s Post) $ "%(e.ld(12),EN,EN))
        e.set(0,"(of-opd ! (unit-lit !))","(tt, tt)")
        e.leave("tt","tt","(held .1 .1 .1 .0, subst (λ (k : ℕ). %s) (reached i n over (held .1 .0)) (held .1 .1 .1 .1))"%(MM%"k"),within=None)
        return e.text()
    def begin(b): b.set(11,"(of-opd ! (lit ! tt))","(tt, record { fits = lit< tt })")
    text=looped(f,LOC,[("i","ℕ"),("zs","List Stem"),("bits","List Bool")],live,{'stems':'zs','mask':'bits'},{'stems':'held .1 .1 .0'},"n",HELD,lambda ls,EN: loops_text(ls,EN,"n","0 ysstems ysmask","(lit< tt, (omega arith, (refl, (refl, marks-none na nu (xacross .now) (xupright .now) (foldedStems m (records first 0 ysstems)) ysmask (folded-none m)))))"),begin,turn,ends,None,None,None,"t-3")
    leaf(f,(sum_,stem_from,mark_stem),"TZ",text," (need : %s)"%f.req(vs),LAWS,"PassCallees","Each turn lends the records to `stem_from` and the mask to `mark_stem`, and has them back.")
# ---- collect_all
def mk_collect_all():
    f=collect_all
    LOC=["tKt","sliceTy (tS (named 0))","sliceTy (sW (named 1))","word","tZt","tyBool","tKt","tF (named 2) 192","tF (named 3) 192","tKt","word","tyBool","tS erased","sliceTy (tS erased)","word","word","tF erased 192","tF erased 192"]
    vs=f.stdvs(); live={k+1:x for k,x in enumerate(f.vals(vs))}; live[9]="machK got"; live[10]="vint w64 i"
    ST="(stemsTo m (xcommands .now) ysstems %s)"
    HELD="(i < 2 ^ 64) × ((i ≤ entries) × ((length zs ≡ mstems) × ((zs ≡ ysstems) × (Is K.the-row got (machK got ∷ []) × Gathers %s c ysacross ysupright got ta tu))))"%(ST%"i")
    def turn(w,ls,EN,live,N):
        w.set(11,"(bin ! %s %s tt)"%(w.ld(10),w.ld(3)),"(tt, tt)")
        w.rewrite(11,"tyBool","t : Bool","(vbool t)","so-is (ltb i entries) (lt→ltb i entries small)")
        w.emit("stays ! %s $ "%w.ld(11))
        w.again(stems,1,12,13)
        EW="(entry-words i entries (xcommands .now) small (need .0 .words))"
        w.call(first_of,{'commands':'commands'},[("i","held .0")],[2,10],14,lands_num(14,"word","w64"),EW)
        w.call(count_of,{'commands':'commands'},[("i","held .0")],[2,10],15,lands_num(15,"word","w64"),EW)
        w.again(acrossM,7,16); w.again(uprightM,8,17)
        w.call(collect_group,{'stems':'stems','across':'across','upright':'upright'},[("r1","is1 .1"),("r2","is2 .1"),("m","m-fits"),("identity",None),("got","held .1 .1 .1 .1 .0")],[13,14,15,4,5,9,16,17],9,lands(9,"K","tKt"),"(in-group i entries (xcommands .now) ysstems zs r1 r2 (need .0) small e1 e2 (held .1 .1 .1 .0), (need .1 .0, held .1 .1 .1 .1 .1 .1 .1))")
        NF="(next-fits i entries small entries-fits)"
        advance(w,10,NF); forgets(w,live,N); u=w.cur
        w.emit("keep ! %s $ by ! (go (i + 1) %s r3 %s %s (grows i) (%s, (omega (arith, small), (%s, (e3 .0 ∙ held .1 .1 .1 .0, (mineK r3 w3 is3, gathers-more c ysacross ysupright %s (foldedStems m (records r1 r2 zs)) %s got r3 ta tu %s %s (stems-more m (xcommands .now) ysstems zs i r1 r2 e1 e2 (held .1 .1 .1 .0)) (held .1 .1 .1 .1 .1) (e3 .1)))))))"%(lst(w.p(x) for x in w.canon()),u['stems']['ys'],u['across']['ys'],u['upright']['ys'],NF,u['stems']['e'],ST%"i",ST%"(i + 1)",u['across']['ys'],u['upright']['ys']))
        return w.text()
    def ends(e,ls,EN,live,N):
        e.set(11,"(bin ! %s %s tt)"%(e.ld(10),e.ld(3)),"(tt, tt)")
        e.rewrite(11,"tyBool","t : Bool","(vbool t)","over")
        e.emit("leaves-loop ! %s $ exec ! C Λ %s text.t-4 (atRet %s Post) $ "%(e.ld(11),EN,EN))
        e.set(0,"(of-opd ! %s)"%e.ld(9),"(typedK 𝓤 H A W got _ (held .1 .1 .1 .1 .0))")
        e.leave("got","(held .1 .1 .1 .1 .0)","(held .1 .1 .1 .0, subst (λ (k : ℕ). Gathers %s c ysacross ysupright got ta tu) (reached i entries over (held .1 .0)) (held .1 .1 .1 .1 .1))"%(ST%"k"),within=None)
        return e.text()
    def begin(b):
        b.set(9,"(of-opd ! %s)"%b.ld(6),"(typedK 𝓤 H A W c _ c-fits)")
        b.set(10,"(of-opd ! (lit ! tt))","(tt, record { fits = lit< tt })")
    text=looped(f,LOC,[("i","ℕ"),("zs","List Stem"),("got","Collected"),("ta","List Float"),("tu","List Float")],live,{'stems':'zs','across':'ta','upright':'tu'},{'stems':'held .1 .1 .0'},"entries",HELD,lambda ls,EN: loops_text(ls,EN,"entries","0 ysstems c ysacross ysupright","(lit< tt, (omega arith, (refl, (refl, (c-fits, gathers-none c ysacross ysupright %s (stems-none m (xcommands .now) ysstems) (need .1 .1))))))"%(ST%"0")),begin,turn,ends,None,None,None,"t-4")
    leaf(f,(first_of,count_of,collect_group),"TZK",text," (need : %s)"%f.req(vs),LAWS+", in-group, stems-none","PassCallees","Each turn lends the records and the tables to `collect_group`, and has them back.")
# ---- write_all
def mk_write_all():
    f=write_all
    LOC=["tRt","sliceTy (tS (named 0))","sliceTy (sW (named 1))","word","tZt","tyBool","tyBool","word","word","sF (named 2) 192","sF (named 3) 192","tM (named 4)","tRt","sliceTy (tO (named 5))","tRt","word","tyBool","tyUnit","tM erased","tS erased","sliceTy (tS erased)","word","word","tM erased","sM erased","tO erased","sliceTy (tO erased)"]
    vs=f.stdvs(); live={k+1:x for k,x in enumerate(f.vals(vs))}; live[14]="machR at"; live[15]="vint w64 i"
    LF="left masked m (xcommands .now) ysstems na nu (xacross .now) (xupright .now)"
    HELD="(i < 2 ^ 64) × ((i ≤ entries) × ((length zs ≡ mstems) × ((zs ≡ ysstems) × ((length bytes ≡ mout) × ((length bits ≡ 96) × (Is R.the-row at (machR at ∷ []) × (%s at bytes i entries ≡ %s wr ysout 0 entries)))))))"%(LF,LF)
    H=["held"+" .1"*k+" .0" for k in (0,1,2,3,4,6)]+["held .1 .1 .1 .1 .1 .1 .1","held .1 .1 .1 .1 .1 .0"]
    def turn(w,ls,EN,live,N):
        w.set(16,"(bin ! %s %s tt)"%(w.ld(15),w.ld(3)),"(tt, tt)")
        w.rewrite(16,"tyBool","t : Bool","(vbool t)","so-is (ltb i entries) (lt→ltb i entries small)")
        w.emit("stays ! %s $ "%w.ld(16))
        w.again(maskM,11,18)
        w.call(clear_mask,{'mask':'mask'},[],[18],17,lands_unit(17))
        m0=w.cur['mask']['ys']
        w.again(stems,1,19,20)
        EW="(entry-words i entries (xcommands .now) small (need .0 .words))"
        w.call(first_of,{'commands':'commands'},[("i",H[0])],[2,15],21,lands_num(21,"word","w64"),EW)
        w.call(count_of,{'commands':'commands'},[("i",H[0])],[2,15],22,lands_num(22,"word","w64"),EW)
        w.again(maskM,11,23)
        w.call(mark_group,{'stems':'stems','across':'across','upright':'upright','mask':'mask'},[("r2","is2 .1"),("r3","is3 .1"),("m","m-fits"),("identity",None),("na","na-fits"),("nu","nu-fits")],[20,21,22,4,5,7,8,9,10,23],17,lands_unit(17),"(in-group i entries (xcommands .now) ysstems zs r2 r3 (need .0) small e2 e3 (%s), (need .1 .0, need .1 .1 .0))"%H[3])
        m1=w.cur['mask']['ys']
        w.call(sum_,{},[("na","na-fits"),("nu","nu-fits")],[7,8],21,lands_num(21,"word","w64"),"(few-fits na nu (need .1 .1 .0))")
        w.again(Ref("mask","sa","bool","Bool",96),11,24); w.again(out,13,25,26)
        w.call(write_entry,{'commands':'commands','mask':'mask','out':'out'},[("i",H[0]),("m","m-fits"),("identity",None),("masked",None),("r5","is5 .1"),("at",H[5])],[2,15,4,5,6,21,24,14,26],14,lands(14,"R","tRt"),"(%s, ((few-sum na nu r5 e5 (need .1 .1 .0), few-mask na nu r5 %s e5 (need .1 .1 .0) (masks-length %s %s (e1 (%s)) (e4 .1 .0))), (need .1 .0, need .0 .finite i small)))"%(EW,m1,m0,m1,H[7]))
        NF="(next-fits i entries small entries-fits)"
        advance(w,15,NF); forgets(w,live,N); u=w.cur
        w.emit("keep ! %s $ by ! (go (i + 1) %s %s r6 %s (grows i) (%s, (omega (arith, small), (%s, (e4 .0 ∙ %s, (%s, (masks-length %s %s (e1 (%s)) (e4 .1 .0), (mineR r6 w6 is6, writes-more masked m (xcommands .now) ysstems na nu (xacross .now) (xupright .now) i entries r2 r3 r5 zs %s %s wr at r6 ysout bytes %s small (need .1 .1 .0) (e1 (%s)) e2 e3 (%s) (e4 .1) e5 e6 (%s)))))))))"%(lst(w.p(x) for x in w.canon()),u['stems']['ys'],u['mask']['ys'],u['out']['ys'],NF,u['stems']['e'],H[3],u['out']['e'],m0,m1,H[7],m0,m1,u['out']['ys'],H[7],H[3],H[6]))
        return w.text()
    def ends(e,ls,EN,live,N):
        e.set(16,"(bin ! %s %s tt)"%(e.ld(15),e.ld(3)),"(tt, tt)")
        e.rewrite(16,"tyBool","t : Bool","(vbool t)","over")
        e.emit("leaves-loop ! %s $ exec ! C Λ %s text.t-4 (atRet %s Post) $ "%(e.ld(16),EN,EN))
        e.set(0,"(of-opd ! %s)"%e.ld(14),"(typedR 𝓤 H A W at _ (%s))"%H[5])
        e.leave("at","(%s)"%H[5],"(%s, writes-all masked m (xcommands .now) ysstems na nu (xacross .now) (xupright .now) i entries wr at ysout bytes over (%s) (%s))"%(H[3],H[1],H[6]),within=None)
        return e.text()
    def begin(b):
        b.set(14,"(of-opd ! %s)"%b.ld(12),"(typedR 𝓤 H A W wr _ wr-fits)")
        b.set(15,"(of-opd ! (lit ! tt))","(tt, record { fits = lit< tt })")
    text=looped(f,LOC,[("i","ℕ"),("zs","List Stem"),("bits","List Bool"),("at","Writer"),("bytes","List ℕ")],live,{'stems':'zs','mask':'bits','out':'bytes'},{'stems':H[2],'out':H[4]},"entries",HELD,lambda ls,EN: loops_text(ls,EN,"entries","0 ysstems ysmask wr ysout","(lit< tt, (omega arith, (refl, (refl, (refl, (need .1 .1 .1, (wr-fits, refl)))))))"),begin,turn,ends,None,None,None,"t-4")
    leaf(f,(clear_mask,first_of,count_of,mark_group,sum_,write_entry),"TZR",text," (need : %s)"%f.req(vs),LAWS+", in-group, masks-length, few-mask, few-fits, few-sum, left, writes-all","PassCallees","Each turn marks the stems of the group that an entry starts, and writes the entry.")
if __name__=="__main__":
    mk_collect_group(); mk_mark_group(); mk_collect_all(); mk_write_all()
