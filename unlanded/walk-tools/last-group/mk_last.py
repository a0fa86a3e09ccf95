import sys; sys.path.insert(0,'/tmp/wt')
import gen, many
from gen import *
import mk_leaves as ML
from mk_leaves import stems, put, blank, sum_, stem_at
from prune import prune
D='$WORK/hc/crates/type1/proofs/'
edgesS=Ref("edges","sa","f64","Float",512); acrossS=Ref("across","sa","bool","Bool",256)
st=Rec("st","S","St")
def lands_bool(dest):
    def go(k): return ("(bool-lawful 𝓤 H A W .typed r%d _ is%d .0)"%(k,k), lambda s: s.rewrite(dest,"tyBool","u : Val","u","ap only is%d"%k))
    return go
U=lambda n,*a:Num(n,"usize","w64")
stem_from=Fn("stem_from",[stems,U("i")],"T.the-row",lambda vs,zs:"(r ≡ getD %s %s zeroStem) × (%s ≡ %s)"%(vs['stems']['ys'],vs['i']['v'],zs[0],vs['stems']['ys']),req=lambda vs:"%s < length %s"%(vs['i']['v'],vs['stems']['ys']),result=Rec("result","T","Stem"))
differs_at=Fn("differs_at",[Rec("v","T","Stem"),U("i"),edgesS,acrossS],"bool",lambda vs,zs:"r ≡ not (sameStem %s (stemAt (%s .now) (%s .now) %s))"%(vs['v']['v'],vs['edges']['x'],vs['across']['x'],vs['i']['v']),req=lambda vs:"%s < 256"%vs['i']['v'],result=Boo("result"))
all_same=Fn("all_same",[U("first"),U("n"),edgesS,acrossS,stems],"bool",lambda vs,zs:"(r ≡ sameStems (take %s (drop %s %s)) (stemsAt 0 %s (%s .now) (%s .now))) × (%s ≡ %s)"%(vs['n']['v'],vs['first']['v'],vs['stems']['ys'],vs['n']['v'],vs['edges']['x'],vs['across']['x'],zs[4],vs['stems']['ys']),req=lambda vs:"(%s ≤ 256) × (%s + %s ≤ length %s)"%(vs['n']['v'],vs['first']['v'],vs['n']['v'],vs['stems']['ys']),result=Boo("result"))
may_be_last=Fn("may_be_last",[Boo("changed"),U("groups"),U("last"),U("count")],"bool",lambda vs,zs:"r ≡ mayBeLast %s %s %s %s"%(vs['changed']['v'],vs['groups']['v'],vs['last']['v'],vs['count']['v']),result=Boo("result"),crate="hints")
last_from=Fn("last_from",[st],"usize",lambda vs,zs:"r ≡ %s .stems - %s .last"%(vs['st']['v'],vs['st']['v']),req=lambda vs:"%s .last ≤ %s .stems"%(vs['st']['v'],vs['st']['v']),result=U("result"))
is_last=Fn("is_last",[st,edgesS,acrossS,stems],"bool",lambda vs,zs:"(r ≡ (%(s)s .changed && (ltb 0 (%(s)s .groups) && sameStems (take (%(s)s .last) (drop (%(s)s .stems - %(s)s .last) %(y)s)) (stemsAt 0 (%(s)s .hints) (%(e)s .now) (%(a)s .now))))) × (%(z)s ≡ %(y)s)"%dict(s=vs['st']['v'],y=vs['stems']['ys'],e=vs['edges']['x'],a=vs['across']['x'],z=zs[3]),req=lambda vs:"(%(s)s .hints ≤ 256) × ((%(s)s .last ≤ %(s)s .stems) × (%(s)s .stems ≤ length %(y)s))"%dict(s=vs['st']['v'],y=vs['stems']['ys']),result=Boo("result"))
IMPL=IMP.replace("lit, unit-lit,","lit, unit-lit, true-lit, false-lit,").replace("bool-makes, bool-vals","bool-lawful, bool-makes, bool-vals").replace("true, false, not}","true, false, not, _&&_}").replace("use lib.ListN.{length, set, replicate}","use lib.ListN.{length, getD, set, take, drop, replicate}")
IMPL=IMPL.replace("move, keep, drop, split,","move, keep, drop as put-away, split,") if False else IMPL
SPECS="use %sState.{sameStem, sameStems}\nuse %sMemory.{stemAt, stemsAt}\nuse %sSmall.{zeroStem}\nuse Rattle·hints.specs.Hints.{mayBeLast}\n"%(SP,SP,SP)
def forgets(w,live,N):
    for i in range(N):
        if i in w.live and i not in live: w.emit("forget ! %d refl $ "%w.p("_%d"%i))
def fixdrop(t):
    """the step `drop` of the kit beside `drop` of lists"""
    return t
def leaf(f,knowns,text,extra,imports,what,ms):
    os.makedirs(D+f.name,exist_ok=True)
    t="-- `type1::%s` meets its contract: a walk of its MIR, by hand. %s\n-- Assumes nothing.\n"%(f.name,what)+IMPL+SPECS+use_syms(knowns).replace(P+'may_be_last','Rattle·hints.proofs.may_be_last')+'''use %(P)s%(n)s.Key.{name as #type1·%(s)s}
use %(P)s%(n)s as f
use %(P)s%(n)s.Statement as stated
use %(P)s%(n)s.Code as code
use %(P)s%(n)s.Code.Mir as text
use %(P)sCallees.{%(cs)s}
'''%dict(P=P,n=f.name,s=f.sym,cs=", ".join([g.C for g in knowns]+[g.sym+"-as" for g in knowns]))+imports+TYPES+typed(ms)+frame(f)+"  module _ %s%s where\n"%(known_binders(knowns),extra)+text+closing(f,knowns)
    t=t.replace("code.calls-type1·may-be-last","code.calls-hints·may-be-last").replace("drop ! $","put-away ! $").replace("move, keep, drop, split,","move, keep, drop as put-away, split,")
    p=D+f.name+'/Proof.antt'; open(p,'w').write(t); prune(p)
if __name__=="__main__":
    # Callees
    p=D+'Callees.antt'; t=open(p).read()
    NEW=(stem_from,differs_at,may_be_last,last_from,all_same)
    if 'stem-from-as' not in t:
        i=t.index("use %sput as put-f"%P); t=t[:i]+"".join("use %s as %s-f\nuse %s.Symbol.{name as %s}\n"%(f.mod,f.sym,f.mod,f.key) for f in NEW)+t[i:]
        i=t.index("  abbrev pub PutC"); t=t[:i]+"".join(contract(f) for f in NEW)+t[i:]
        t=t.rstrip("\n")+"\n"+"".join(f.as_lemma() for f in NEW)
        t=t.replace("drop ! $","put-away ! $").replace("move, drop, split,","move, drop as put-away, split,")
        t=t.replace("use lib.ListN.{length, set, replicate}","use lib.ListN.{length, getD, set, take, drop, replicate}").replace("use mathlib.Core.Bool.{Bool}","use mathlib.Core.Bool.{Bool, not}").replace("use Prim.Native.Nat.{ℕ, _+_, _<_, _^_}","use Prim.Native.Nat.{ℕ, _+_, _-_, _<_, _≤_, _^_}")
        t=t.replace("use denote.Plain.{Nothing, uint-makes}","use denote.Plain.{Nothing, uint-makes, bool-makes}")
        t=t.replace("use %sMemory.{stemAt}\nuse %sSmall.{zeroStem}\n"%(SP,SP),SPECS)
        t=t.replace("use %sdeclared.Stem.{Stem}\n"%SP,"use %sdeclared.Stem.{Stem}\nuse %sdeclared.St.{St}\n"%(SP,SP)).replace("use %sStem.Laws as T′\n"%P,"use %sStem.Laws as T′\nuse %sSt as S\nuse %sSt.Laws as S′\n"%(P,P,P)).replace("Locals.{machT}","Locals.{machT, machS}")
        open(p,'w').write(t)
    # all_same
    f=all_same
    LOC=["tyBool","word","word","sF (named 0) 512","sA (named 1)","sliceTy (tS (named 2))","word","tyBool","tyBool","tTt","tS erased","sliceTy (tS erased)","word"]
    vs=f.stdvs(); live={k+1:x for k,x in enumerate(f.vals(vs))}; live[6]="vint w64 i"
    EA="(xedges .now) (xacross .now)"
    HELD="(i < 2 ^ 64) × ((i ≤ n) × ((length zs ≡ mstems) × ((zs ≡ ysstems) × (sameStems (take i (drop first ysstems)) (stemsAt 0 i %s) ≡ true))))"%EA
    def turn(w,ls,EN,live,N):
        w.set(7,"(bin ! %s %s tt)"%(w.ld(6),w.ld(2)),"(tt, tt)")
        w.rewrite(7,"tyBool","t : Bool","(vbool t)","so-is (ltb i n) (lt→ltb i n small)")
        w.emit("stays ! %s $ "%w.ld(7))
        w.again(stems,5,10,11)
        w.call(sum_,{},[("first","first-fits"),("i","held .0")],[1,6],12,lands_num(12,"word","w64"),"(sum-fits first i n mstems small (need .1) (fitstems .0))")
        w.call(stem_from,{'stems':'stems'},[("r1","is1 .1")],[11,12],9,lands(9,"T","tTt"),"(subst (λ (k : ℕ). r1 < k) (sym (held .1 .1 .0)) (subst (λ (k : ℕ). k < mstems) (sym e1) (in-store first i n mstems small (need .1))))")
        w.call(differs_at,{'edges':'edges','across':'across'},[("r2","mineT r2 w2 is2"),("i","held .0")],[9,6,3,4],8,lands_bool(8),"(omega (arith, small, need .0))")
        w.emit("\n        guards ! %s\n        "%w.ld(8))
        LAW="ysstems first %s i n r1 r2 zs r3 (need .1) small e1 (held .1 .1 .1 .0) (e2 .0) e3"%EA
        y=w.copy(); y.open("(λ off. ")
        y.set(0,"(of-opd ! (false-lit !))","(tt, tt)")
        y.leave("false",None,"(same-stop %s off, e2 .1 ∙ held .1 .1 .1 .0)"%LAW)
        z=w.copy(); z.open("(λ on. ")
        NF="(next-fits i n small n-fits)"
        z.emit("\n        assigns-last ! (bin ! %s (lit ! tt) (record { fits = %s })) (from ! (stop !)) (store ! %d refl (tt, record { fits = %s })) $ "%(z.ld(6),NF,z.p("_6"),NF))
        forgets(z,live,N); u=z.cur['stems']
        z.emit("keep ! %s $ by ! (go (i + 1) %s (grows i) (%s, (omega (arith, small), (%s, (e2 .1 ∙ held .1 .1 .1 .0, same-turn %s on (held .1 .1 .1 .1))))))"%(lst(z.p(x) for x in z.canon()),u['ys'],NF,u['e'],LAW))
        return "".join(w.out)+y.text()+"\n        "+z.text()+")"*w.paren
    def ends(e,ls,EN,live,N):
        e.set(7,"(bin ! %s %s tt)"%(e.ld(6),e.ld(2)),"(tt, tt)")
        e.rewrite(7,"tyBool","t : Bool","(vbool t)","over")
        e.emit("leaves-loop ! %s $ exec ! C Λ %s text.t-3 (atRet %s Post) $ "%(e.ld(7),EN,EN))
        e.set(0,"(of-opd ! (true-lit !))","(tt, tt)")
        e.leave("true",None,"(same-end ysstems first %s i n over (held .1 .0) (held .1 .1 .1 .1), held .1 .1 .1 .0)"%EA,within=None)
        return e.text()
    begin_=lambda b: b.set(6,"(of-opd ! (lit ! tt))","(tt, record { fits = lit< tt })")
    text=looped(f,LOC,[("i","ℕ"),("zs","List Stem")],live,{'stems':'zs'},{'stems':'held .1 .1 .0'},"n",HELD,lambda ls,EN: loops_text(ls,EN,"n","0 ysstems","(lit< tt, (omega arith, (refl, (refl, same-begun ysstems first %s))))"%EA),begin_,turn,ends,None,None,None,"t-3")
    leaf(f,(sum_,stem_from,differs_at),text," (need : %s)"%f.req(vs),"use %sStored.{next-fits, grows, sum-fits, in-store}\nuse %sHints.{same-begun, same-turn, same-stop, same-end}\n"%(P,P),"Each turn of its loop lends the records to `stem_from` and has them back.","T")
    # is_last
    f=is_last; vs=f.stdvs()
    LOC=["tyBool","tSt","sF (named 0) 512","sA (named 1)","sliceTy (tS (named 2))","tyBool","word","tS erased","sliceTy (tS erased)"]
    def owedf(m,val,mv,is_,k): return "(LL.owed %s.the-type %s′.the-laws %s (%s ∷ []) %s)"%(m,m,val,mv,is_)+" .1"*k+" .0"
    w=M(f,len(LOC)); w.begin(None,None,None)
    ST=lambda k: owedf("S","st","machS st","st-fits",k)+" .1"
    w.call(may_be_last,{},[("(st .changed)",None),("(st .groups)",ST(7)),("(st .last)",ST(6)),("(st .hints)",ST(5))],[lambda s:s.fldp(1,13),lambda s:s.fldp(1,7),lambda s:s.fldp(1,6),lambda s:s.fldp(1,5)],5,lands_bool(5))
    w.emit("\n        guards ! %s\n        "%w.ld(5))
    LAW="st ysstems %s (need .1 .0) (need .1 .1) r1"%EA
    y=w.copy(); y.open("(λ may. ")
    y.call(last_from,{},[("st","st-fits")],[1],6,lands_num(6,"word","w64"),"(need .1 .0)")
    y.again(stems,4,7,8)
    y.call(all_same,{'edges':'edges','across':'across','stems':'stems'},[("r2","is2 .1"),("(st .hints)",owedf("S","st","machS st","st-fits",5)+" .1")],[6,lambda s:s.fldp(1,5),2,3,8],0,lands_bool(0),"(need .0, last-room %s r2 e1 e2 may)"%LAW)
    y.leave("r3",None,"(last-found %s r2 e1 e2 may r3 (e3 .0), e3 .1)"%LAW)
    z=w.copy(); z.open("(λ not-so. ")
    z.set(0,"(of-opd ! (false-lit !))","(tt, tt)")
    z.leave("false",None,"(last-not %s e1 not-so, refl)"%LAW,within=None)
    wt="""    pub walk : ent 𝓤 (onEntry 𝓤 H A f.signature %s %s a vals) (WpFn 𝓤 H C Λ code.function args Post)
    walk =
        %s
"""%(nest(["κ"+r.name for r in f.refs]),nest(["q"+r.name for r in f.refs]),"".join(w.out)+y.text()+"\n        "+z.text()+")"*w.paren)
    leaf(f,(may_be_last,last_from,all_same),wt," (need : %s)"%f.req(vs),"use %sHints.{last-room, last-found, last-not}\n"%P,"It lends the records to `all_same`.","S")
