from gen import *
D='/tmp/h6gen/'
stems=Ref("stems","sl","T.the-row","Stem")
edgesS=Ref("edges","sa","f64","Float",1024); acrossS=Ref("across","sa","bool","Bool",512)
put=Fn("put",[stems,Num("i","usize","w64"),Rec("v","T","Stem")],"Nothing",lambda vs,zs:"%s ≡ set %s %s %s"%(zs[0],vs['stems']['ys'],vs['i']['v'],vs['v']['v']),req=lambda vs:"%s < length %s"%(vs['i']['v'],vs['stems']['ys']),result=Non())
blank=Fn("blank",[],"T.the-row",lambda vs,zs:"r ≡ zeroStem")
sum_=Fn("sum",[Num("a","usize","w64"),Num("b","usize","w64")],"usize",lambda vs,zs:"r ≡ %s + %s"%(vs['a']['v'],vs['b']['v']),req=lambda vs:"%s + %s < 18446744073709551616"%(vs['a']['v'],vs['b']['v']))
stem_at=Fn("stem_at",[Num("i","usize","w64"),edgesS,acrossS],"T.the-row",lambda vs,zs:"r ≡ stemAt (%s .now) (%s .now) %s"%(vs['edges']['x'],vs['across']['x'],vs['i']['v']),req=lambda vs:"%s < 256"%vs['i']['v'])
keep_group=Fn("keep_group",[Num("used","usize","w64"),Num("n","usize","w64"),edgesS,acrossS,stems],"Nothing",lambda vs,zs:"%s ≡ paste %s %s (stemsAt 0 %s (%s .now) (%s .now)) %s"%(zs[4],vs['stems']['ys'],vs['used']['v'],vs['n']['v'],vs['edges']['x'],vs['across']['x'],vs['n']['v']),req=lambda vs:"(%s ≤ 256) × (%s + %s ≤ length %s)"%(vs['n']['v'],vs['used']['v'],vs['n']['v'],vs['stems']['ys']),result=Non())
wipe=Fn("wipe",[stems],"Nothing",lambda vs,zs:"%s ≡ replicate (length %s) zeroStem"%(zs[0],vs['stems']['ys']),result=Non())
if __name__=="__main__":
    LEAVES=(put,blank,sum_,stem_at)
    t="-- What a caller has of each callee, in the form that `Many.antt`'s `asks-all` takes. Assumes `Given`, and that the callee's entry meets its contract.\n"+IMP+"use %sMemory.{stemAt, stemsAt}\nuse %sSmall.{zeroStem}\n"%(SP,SP)
    for f in LEAVES: t+="use %s%s as %s-f\nuse %s%s.Symbol.{name as %s}\n"%(P,f.name,f.sym,P,f.name,f.key)
    t+="\n"+HEAD+"".join(contract(f) for f in LEAVES)+HEAD.replace(" where"," (W : Given 𝓤 H A) (C : Calls 𝓤 H) where").rstrip("\n")
    for f in LEAVES: t+=f.as_lemma()
    open(D+'Callees.antt','w').write(t); open(D+'Locals.antt','w').write(locals_file())
    def leaf(f,knowns,LOC,text,extra,imports):
        os.makedirs(D+f.name,exist_ok=True)
        return "-- `type1::%s` meets its contract: a walk of its MIR, by hand, with its loop. Each turn lends the records to `put` and has them back.\n-- Assumes nothing.\n"%f.name+IMP+"use %sMemory.{stemAt, stemsAt}\nuse %sSmall.{zeroStem}\n"%(SP,SP)+use_syms(knowns)+'''use %(P)s%(n)s.Key.{name as #type1·%(s)s}
use %(P)s%(n)s as f
use %(P)s%(n)s.Statement as stated
use %(P)s%(n)s.Code as code
use %(P)s%(n)s.Code.Mir as text
use %(P)sCallees.{%(cs)s}
use %(P)sStored.{%(imports)s}
'''%dict(P=P,n=f.name,s=f.sym,cs=", ".join([g.C for g in knowns]+[g.sym+"-as" for g in knowns]),imports=imports)+TYPES+typed("T")+frame(f)+"  module _ %s%s where\n"%(known_binders(knowns),extra)+text+closing(f,knowns)
    # wipe
    LOC=["tyUnit","sliceTy (tS (named 0))","word","word","tyBool","tyUnit","tS erased","sliceTy (tS erased)","tTt"]
    def turn(w,ls,EN,live,N):
        w.set(3,"(of-opd ! %s)"%w.fldp(1,1),"(tt, record { fits = fitstems .0 })")
        w.set(4,"(bin ! %s %s tt)"%(w.ld(2),w.ld(3)),"(tt, tt)")
        w.rewrite(4,"tyBool","t : Bool","(vbool t)","so-is (ltb i mstems) (lt→ltb i mstems small)")
        w.emit("stays ! %s $ "%w.ld(4))
        w.again(stems,1,6,7)
        w.call(blank,{},[],[],8,lands(8,"T","tTt"))
        w.call(put,{'stems':'stems'},[("i","held .0"),("r1","mineT r1 w1 is1")],[7,2,8],5,lands_unit(5),"(subst (λ (k : ℕ). i < k) (sym (held .1 .0)) small)")
        w.emit("\n        assigns-last ! (bin ! %s (lit ! tt) (record { fits = next-fits i mstems small (fitstems .0) })) (from ! (stop !)) (store ! %d refl (tt, record { fits = next-fits i mstems small (fitstems .0) })) $ "%(w.ld(2),w.p("_2")))
        for i in range(N):
            if i in w.live and i not in live: w.emit("forget ! %d refl $ "%w.p("_%d"%i))
        w.emit("keep ! %s $ by ! (go (i + 1) %s (grows i) (next-fits i mstems small (fitstems .0), (%s, stored-one %s ysstems 0 (replicate mstems zeroStem) i zs r1 (replicated mstems i small) (held .1 .1) (e1 ∙ sym (getD-replicate mstems i zeroStem zeroStem small)) e2)))"%(lst(w.p(x) for x in w.canon()),w.cur['stems']['ys'],w.cur['stems']['e'],w.cur['stems']['ys']))
        return w.text()
    def ends(e,ls,EN,live,N):
        e.set(3,"(of-opd ! %s)"%e.fldp(1,1),"(tt, record { fits = fitstems .0 })")
        e.set(4,"(bin ! %s %s tt)"%(e.ld(2),e.ld(3)),"(tt, tt)")
        e.rewrite(4,"tyBool","t : Bool","(vbool t)","over")
        e.emit("leaves-loop ! %s $ exec ! C Λ %s text.t-3 (atRet %s Post) $ "%(e.ld(4),EN,EN))
        e.set(0,"(of-opd ! (unit-lit !))","(tt, tt)")
        e.leave("tt","tt","WIPED",within=None)
        return e.text()
    open(D+'wipe/x','w') if False else None
    HELD="(i < 2 ^ 64) × ((i ≤ %s) × ((length zs ≡ mstems) × (zs ≡ paste ysstems %s %s i)))"
    def begin_(i):
        return lambda b: b.set(i,"(of-opd ! (lit ! tt))","(tt, record { fits = lit< tt })")
    def forgets(w,live,N):
        for i in range(N):
            if i in w.live and i not in live: w.emit("forget ! %d refl $ "%w.p("_%d"%i))
    WS="(replicate mstems zeroStem)"
    def turn(w,ls,EN,live,N):
        w.set(3,"(of-opd ! %s)"%w.fldp(1,1),"(tt, record { fits = fitstems .0 })")
        w.set(4,"(bin ! %s %s tt)"%(w.ld(2),w.ld(3)),"(tt, tt)")
        w.rewrite(4,"tyBool","t : Bool","(vbool t)","so-is (ltb i mstems) (lt→ltb i mstems small)")
        w.emit("stays ! %s $ "%w.ld(4))
        w.again(stems,1,6,7)
        w.call(blank,{},[],[],8,lands(8,"T","tTt"))
        w.call(put,{'stems':'stems'},[("i","held .0"),("r1","mineT r1 w1 is1")],[7,2,8],5,lands_unit(5),"(subst (λ (k : ℕ). i < k) (sym (held .1 .1 .0)) small)")
        NF="(next-fits i mstems small (fitstems .0))"
        w.emit("\n        assigns-last ! (bin ! %s (lit ! tt) (record { fits = %s })) (from ! (stop !)) (store ! %d refl (tt, record { fits = %s })) $ "%(w.ld(2),NF,w.p("_2"),NF))
        forgets(w,live,N); u=w.cur['stems']
        w.emit("keep ! %s $ by ! (go (i + 1) %s (grows i) (%s, (omega (arith, small), (%s, stored-one ysstems zeroStem 0 %s i i zs %s r1 (omega (arith, small)) (subst (λ (k : ℕ). i < k) (sym (length-replicate mstems zeroStem)) small) (omega arith) (held .1 .1 .1) (e1 ∙ sym (getD-replicate mstems i zeroStem zeroStem small)) e2))))"%(lst(w.p(x) for x in w.canon()),u['ys'],NF,u['e'],WS,u['ys']))
        return w.text()
    def ends(e,ls,EN,live,N):
        e.set(3,"(of-opd ! %s)"%e.fldp(1,1),"(tt, record { fits = fitstems .0 })")
        e.set(4,"(bin ! %s %s tt)"%(e.ld(2),e.ld(3)),"(tt, tt)")
        e.rewrite(4,"tyBool","t : Bool","(vbool t)","over")
        e.emit("leaves-loop ! %s $ exec ! C Λ %s text.t-3 (atRet %s Post) $ "%(e.ld(4),EN,EN))
        e.set(0,"(of-opd ! (unit-lit !))","(tt, tt)")
        e.leave("tt","tt","all-stored ysstems 0 %s i mstems zs over (held .1 .0) (held .1 .1 .1) ∙ paste-all ysstems %s mstems refl (length-replicate mstems zeroStem)"%(WS,WS),within=None)
        return e.text()
    vs=wipe.stdvs(); live={1:wipe.vals(vs)[0],2:"vint w64 i"}
    text=looped(wipe,LOC,[("i","ℕ"),("zs","List Stem")],live,{'stems':'zs'},{'stems':'held .1 .1 .0'},"mstems",HELD%("mstems","0",WS),lambda ls,EN: loops_text(ls,EN,"mstems","0 ysstems","(lit< tt, (omega arith, (refl, paste-zero ysstems 0 %s)))"%WS),begin_(2),turn,ends,None,None,None,"t-3")
    IMPS="use lib.ListN.{getD-replicate, length-replicate}\nuse lib.Seq.{paste-zero}\n"
    open(D+'wipe/Proof.antt','w').write(leaf(wipe,(blank,put),LOC,text,"","stored-one, all-stored, paste-all, next-fits, grows").replace("use lib.ListN.{length, set, replicate}\nuse lib.Seq.{paste}\n","use lib.ListN.{length, set, replicate, getD-replicate, length-replicate}\nuse lib.Seq.{paste, paste-zero}\n"))
    # keep_group
    LOC=["tyUnit","word","word","sF (named 0) 1024","sA (named 1)","sliceTy (tS (named 2))","word","tyBool","tyUnit","tS erased","sliceTy (tS erased)","word","tTt"]
    KS="(stemsAt 0 n (xedges .now) (xacross .now))"
    def turn(w,ls,EN,live,N):
        w.set(7,"(bin ! %s %s tt)"%(w.ld(6),w.ld(2)),"(tt, tt)")
        w.rewrite(7,"tyBool","t : Bool","(vbool t)","so-is (ltb i n) (lt→ltb i n small)")
        w.emit("stays ! %s $ "%w.ld(7))
        w.again(stems,5,9,10)
        w.call(sum_,{},[("used","used-fits"),("i","held .0")],[1,6],11,lands_num(11,"word","w64"),"(sum-fits used i n mstems small (need .1) (fitstems .0))")
        w.call(stem_at,{'edges':'edges','across':'across'},[("i","held .0")],[6,3,4],12,lands(12,"T","tTt"),"(omega (arith, small, need .0))")
        w.call(put,{'stems':'stems'},[("r1","is1 .1"),("r2","mineT r2 w2 is2")],[10,11,12],8,lands_unit(8),"(subst (λ (k : ℕ). r1 < k) (sym (held .1 .1 .0)) (subst (λ (k : ℕ). k < mstems) (sym e1) (in-store used i n mstems small (need .1))))")
        NF="(next-fits i n small n-fits)"
        w.emit("\n        assigns-last ! (bin ! %s (lit ! tt) (record { fits = %s })) (from ! (stop !)) (store ! %d refl (tt, record { fits = %s })) $ "%(w.ld(6),NF,w.p("_6"),NF))
        forgets(w,live,N); u=w.cur['stems']
        w.emit("keep ! %s $ by ! (go (i + 1) %s (grows i) (%s, (omega (arith, small), (%s, stored-one ysstems zeroStem used %s i r1 zs %s r2 (in-store used i n mstems small (need .1)) (subst (λ (k : ℕ). i < k) (sym (length-stemsAt 0 n (xedges .now) (xacross .now))) small) e1 (held .1 .1 .1) (e2 ∙ sym (first-stems n (xedges .now) (xacross .now) i small)) e3))))"%(lst(w.p(x) for x in w.canon()),u['ys'],NF,u['e'],KS,u['ys']))
        return w.text()
    def ends(e,ls,EN,live,N):
        e.set(7,"(bin ! %s %s tt)"%(e.ld(6),e.ld(2)),"(tt, tt)")
        e.rewrite(7,"tyBool","t : Bool","(vbool t)","over")
        e.emit("leaves-loop ! %s $ exec ! C Λ %s text.t-3 (atRet %s Post) $ "%(e.ld(7),EN,EN))
        e.set(0,"(of-opd ! (unit-lit !))","(tt, tt)")
        e.leave("tt","tt","all-stored ysstems used %s i n zs over (held .1 .0) (held .1 .1 .1)"%KS,within=None)
        return e.text()
    vs=keep_group.stdvs(); live={k+1:x for k,x in enumerate(keep_group.vals(vs))}; live[6]="vint w64 i"
    text=looped(keep_group,LOC,[("i","ℕ"),("zs","List Stem")],live,{'stems':'zs'},{'stems':'held .1 .1 .0'},"n",HELD%("n","used",KS),lambda ls,EN: loops_text(ls,EN,"n","0 ysstems","(lit< tt, (omega arith, (refl, paste-zero ysstems used %s)))"%KS),begin_(6),turn,ends,None,None,None,"t-3")
    open(D+'keep_group/Proof.antt','w').write(leaf(keep_group,(sum_,stem_at,put),LOC,text," (need : %s)"%keep_group.req(vs),"stored-one, all-stored, next-fits, grows, sum-fits, in-store, first-stems, length-stemsAt").replace("use lib.Seq.{paste}\n","use lib.Seq.{paste, paste-zero}\n"))
    from prune import prune
    for x in ('Callees','Locals','wipe/Proof','keep_group/Proof'): prune(D+x+'.antt')
