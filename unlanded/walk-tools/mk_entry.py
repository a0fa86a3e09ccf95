from gen import *
import mk_cycle as cy
from mk_leaves import stems, wipe
from mk_cycle import bank, ops, ps, cells, edges, across, iv, st, run as run_member, DEFS, SEVEN, pz, memt, res
D='/tmp/gen/'
charstring=Ref("charstring","shr","u8","ℕ"); commands=Ref("commands","sl","u64","ℕ"); cellsS=Ref("cells","sa","f64","Float",19)
INT=Rec("result","I","Interpreted")
OUT=lambda vs:"(outcome (%s .now) (%s .now) %s (length %s) (length %s))"%(vs['charstring']['x'],vs['bank']['x'],vs['iv']['v'],vs['stems']['ys'],vs['commands']['ys'])
LV=lambda vs,c,z:"Leaves r %s %s %s %s %s"%(pz(c),pz(z),vs['commands']['ys'],vs['stems']['ys'],OUT(vs))
interpret=Fn("interpret",[charstring,bank,iv,ops,ps,cells,edges,across,commands,stems],"I.the-row",lambda vs,zs:LV(vs,zs[8],zs[9]),req=lambda vs:"Cleared %s"%" ".join(vs[x]['ys'] for x in SEVEN[:5]),result=INT)
run_charstring=Fn("run_charstring",[charstring,bank,iv,commands,stems],"I.the-row",lambda vs,zs:LV(vs,zs[3],zs[4]),result=INT)
start_run=Fn("start_run",[charstring,bank],"N.the-row",lambda vs,zs:"r ≡ ranOf (zeroSt (length (%s .now))) (startFlow (%s .now) (%s .now))"%(vs['charstring']['x'],vs['charstring']['x'],vs['bank']['x']))
number_of=Fn("number_of",[Num("flow","u8","w8")],"u8",lambda vs,zs:"r ≡ numberOf %s"%vs['flow']['v'],result=Num("result","u8","w8"))
wipe_words=Fn("wipe_words",[commands],"Nothing",lambda vs,zs:"%s ≡ replicate (length %s) 0"%(zs[0],vs['commands']['ys']),result=Non())
refused=Fn("refused",[Num("number","u8","w8")],"I.the-row",lambda vs,zs:"r ≡ refusedWith %s"%vs['number']['v'],result=INT)
answer=Fn("answer",[st,cellsS],"I.the-row",lambda vs,zs:"r ≡ answerOf %s (%s .now)"%(vs['st']['v'],vs['cells']['x']),result=INT)
run=Fn("run",run_member.params,"N.the-row",run_member.phi,req=run_member.req)
EDEFS=DEFS+'''use %(S)sSmall.{zeroStem}
use %(S)sEntry.{zeroSt, startFlow, numberOf, answerOf, Cleared}
use %(S)sInterpret.{outcome, refusedWith, Leaves}
'''%dict(S=SP)
IMPE=IMP.replace("use denote.Triple.Spec.{Meets, tripleOf}","use denote.Triple.Spec.{Meets as MeetsC, tripleOf}")+EDEFS
CALLEES=(start_run,number_of,wipe,wipe_words,refused,answer,run,interpret)
t="-- What the entry has of each callee, in the form that `Many.antt`'s `asks-all` takes. Assumes `Given`, and that the callee's entry meets its contract.\n"+IMPE
for f in CALLEES: t+="use %s as %s-f\nuse %s.Symbol.{name as %s}\n"%(f.mod,f.sym,f.mod,f.key)
t+="\n"+HEAD+"".join(contract(f) for f in CALLEES)+HEAD.replace(" where"," (W : Given 𝓤 H A) (C : Calls 𝓤 H) where").rstrip("\n")
for f in CALLEES: t+=f.as_lemma()
t=t.replace("Reading.{cursorOf, Reads, Calls}","Reading.{cursorOf, Reads}")
open(D+'EntryCallees.antt','w').write(t)
def leaf(f,note,knowns,recs,text,extra,uses,req):
    os.makedirs(D+f.name,exist_ok=True)
    t=note+IMPE.replace("Reading.{cursorOf, Reads, Calls}","Reading.{cursorOf, Reads}")+use_syms(knowns)+'''use %(P)s%(n)s.Key.{name as #type1·%(s)s}
use %(P)s%(n)s as f
use %(P)s%(n)s.Statement as stated
use %(P)s%(n)s.Code as code
use %(P)s%(n)s.Code.Mir as text
use %(P)sEntryCallees.{%(cs)s}
'''%dict(P=P,n=f.name,s=f.sym,cs=", ".join([g.C for g in knowns]+[g.sym+"-as" for g in knowns]))+uses+typed(recs)+frame(f)+"  module _ %s%s where\n"%(known_binders(knowns),extra)+text+closing(f,knowns).replace("→ Meets 𝓤","→ MeetsC 𝓤")
    open(D+f.name+'/Proof.antt','w').write(t)
def walk_text(f,text): return '''    pub walk : ent 𝓤 (onEntry 𝓤 H A f.signature %s %s a vals) (WpFn 𝓤 H C Λ code.function args Post)
    walk =
        %s
'''%(nest(["κ"+r.name for r in f.refs]),nest(["q"+r.name for r in f.refs]),text)
# ---- interpret
def interpret_walk():
    f=interpret; N=36; vs=f.stdvs()
    w=M(f,N); w.begin(None,None,None)
    w.open("knows-bytes ! tt xcharstring (λ octets. "); w.front("ownbank","lftbank"); w.open("knows-bytes ! tt xbank (λ octets′. ")
    w.call(start_run,{'charstring':'charstring','bank':'bank'},[],[1,2],11,lands(11,"N","tNt"))
    OW=[res("N",1,i) for i in range(2)]
    w.set(12,"(of-opd ! %s)"%w.fldp(11,1),"(tt, record { fits = %s .1 })"%OW[1])
    w.set(15,"(bin ! %s (lit ! tt) tt)"%w.ld(12),"(tt, tt)")
    w.emit("\n        guards ! %s\n        "%w.ld(15))
    IN="(xcharstring .now) (xbank .now) iv r1 e1 yscommands ysstems"
    def away(y,k,a,unit,law,flow,flow_fits,at):
        y.again(stems,10,a[0],a[1]); y.call(wipe,{'stems':'stems'},[],[a[1]],unit,lands_unit(unit))
        y.again(commands,9,a[2],a[3]); y.call(wipe_words,{'commands':'commands'},[],[a[3]],unit,lands_unit(unit))
        y.call(refused,{},[(flow,flow_fits)],[at],0,lands(0,"I","tIt"))
        n=y.k
        y.leave("r%d"%n,"(mineI r%d w%d is%d)"%(n,n,n),law(n,y.cur['commands']['ys'],y.cur['stems']['ys']))
    y=w.copy(); y.open("(λ off. ")
    away(y,1,(17,18,19,20),16,lambda n,c,z:"refused-first %s off r%d %s %s e%d e%d e%d"%(IN,n,c,z,n,n-1,n-2),"(r1 .flow)",OW[1]+" .1",12)
    z=w.copy(); z.open("(λ on. ")
    z.again(ops,4,21); z.again(ps,5,22); z.again(cells,6,23); z.again(edges,7,24); z.again(across,8,25); z.again(commands,9,26,27); z.again(stems,10,28,29)
    ARR="%s %s need on"%(IN," ".join(vs[x]['ys'] for x in SEVEN[:5]))
    src={x:x for x in SEVEN}; src.update(code='charstring',bank='bank',cmds='commands')
    z.call(run,src,[("iv","iv-fits"),("10","lit< tt"),("(r1 .st)",OW[0])],[1,2,3,lambda s:"(lit ! tt)",lambda s:s.fldp(11,0),21,22,23,24,25,27,29],13,lands(13,"N","tNt"),"(lit< tt, (valid-start %s, ready-start %s))"%(ARR,ARR))
    O2=[res("N",2,i) for i in range(2)]
    z.call(number_of,{},[("(r2 .flow)",O2[1]+" .1")],[lambda s:s.fldp(13,1)],14,lands_num(14,"byte","w8"))
    z.set(15,"(bin ! %s (lit ! tt) tt)"%z.ld(14),"(tt, tt)")
    z.emit("\n        guards ! %s\n        "%z.ld(15))
    mine=[z.cur['commands' if x=='cmds' else x]['ys'] for x in SEVEN]; M2=memt(mine)
    RAN="%s r2 %s e2 r3 e3"%(ARR,M2); lc=z.cur['commands']['e']; lz=z.cur['stems']['e']
    p=z.copy(); p.open("(λ off. ")
    away(p,2,(31,32,33,34),30,lambda n,c,q:"refused-later %s off r%d %s %s e%d (e%d ∙ ap (λ (k : ℕ). replicate k 0) (%s)) (e%d ∙ ap (λ (k : ℕ). replicate k zeroStem) (%s))"%(RAN,n,c,q,n,n-1,lc,n-2,lz),"r3","is3 .1",14)
    q=z.copy(); q.open("(λ done′. ")
    q.again(cellsS,6,35)
    q.call(answer,{'cells':'cells'},[("(r2 .st)",O2[0])],[lambda s:s.fldp(13,0),35],0,lands(0,"I","tIt"))
    q.leave("r4","(mineI r4 w4 is4)","ran-through %s octets octets′ done′ r4 e4"%RAN,within=None)
    return "".join(w.out)+y.text()+"\n        "+"".join(z.out)+p.text()+"\n        "+q.text()+")"*z.paren+")"*w.paren
vs=interpret.stdvs(); gs=(start_run,wipe,wipe_words,refused,run,number_of,answer)
leaf(interpret,"-- `type1::interpret` meets its contract: a walk of its MIR, by hand. It lends the arrays and the stores to `run`, and the stores to `wipe` and `wipe_words` where the run is refused.\n-- Assumes nothing.\n",gs,"NIS",walk_text(interpret,interpret_walk())," (need : %s)"%interpret.req(vs),"use %sOctets.{knows-bytes}\nuse %sEntryLaws.{refused-first, valid-start, ready-start, refused-later, ran-through}\n"%(P,P),True)
# ---- run_charstring
def entry_walk():
    f=run_charstring; N=20
    w=M(f,N); w.begin(None,None,None)
    locs=[(6,ops),(7,ps),(8,cells),(9,edges),(10,across)]
    for i,r in locs:
        b=r.row=="bool"; zero="false" if b else "nought"; u="(vbool false)" if b else "(vfloat binary64 nought)"
        IS="(repeat-is %s %s %s %s %d)"%(r.row,zero,u,"refl" if b else "nought-is",r.n)
        law="bool-lawful 𝓤 H A W" if b else "float-lawful 𝓤 H A W binary64"; mk="bool-makes 𝓤 H A W" if b else "float-makes 𝓤 H A W binary64"
        w.set(i,"(rep ! %d %s)"%(r.n,"(false-lit !)" if b else "(float-lit ! tt)"),"(array-lawful 𝓤 H A W %s (%s) %d .typed (replicate %d %s) (arrayVal (replicate %d %s) ∷ []) %s .0)"%(r.row,law,r.n,r.n,zero,r.n,u,IS))
        w.emit("owned ! %s (Is %s) (array-makes 𝓤 H A W %s (%s) %d) (replicate %d %s) _ %s $ "%(r.target,r.target,r.row,mk,r.n,r.n,zero,IS)); w.ctx=["own"+r.name]+w.ctx
        w.front("_%d"%i,"own"+r.name)
        w.open("lend-local ! tt %s refl (replicate %d %s) (λ ν%s δ%s. "%(r.target,r.n,zero,r.name,r.name))
        w.ctx=["own"+r.name,"lft"+r.name,"loc"+r.name]+w.ctx[2:]
        w.extra[r.name]=r; w.cur[r.name]=dict(κ="(ν%s ∷ [])"%r.name,q="fullShare",b="l"+sub(i),o="0",γ="δ"+r.name,ys="(replicate %d %s)"%(r.n,zero),e="refl")
    for i,r in locs: w.set(i+5,"(addr ! (from ! (stop !)))","(tt, tt)")
    w.again(commands,4,16,17); w.again(stems,5,18,19)
    src={r.name:r.name for r in interpret.refs}
    w.call(interpret,src,[("iv","iv-fits")],[1,2,3,11,12,13,14,15,17,19],0,lands(0,"I","tIt"),"cleared")
    for i,r in locs:
        w.front("own"+r.name,"lft"+r.name,"loc"+r.name)
        w.open("local-back ! tt %s refl %s (λ v%s. "%(r.target,w.cur[r.name]['ys'],r.name)); w.ctx=["_%d"%i]+w.ctx[3:]
    w.leave("r1","(mineI r1 w1 is1)","e1",within=None)
    return w.text()
leaf(run_charstring,"-- `type1::run_charstring` meets its contract: a walk of its MIR, by hand. Its five arrays are zero, are lent to `interpret`, and die.\n-- Assumes nothing.\n",(interpret,),"I",walk_text(run_charstring,entry_walk()),"",'''use lib.Ieee.{ofBits, fits}
use mir.Val.{vfloat}
use types.Run.{float-lit, false-lit}
use types.Part.{rep}
use denote.Array.{arrayVal, array-lawful, array-makes}
use denote.Floats.{float-lawful, float-makes}
use denote.Plain.{bool-lawful}
use %sState.{plusZero}
use %sLentLocal.{repeat-is, lend-local, local-back}

abbrev nought : Float
nought = ofBits binary64 0

nought-is : Is f64 nought (vfloat binary64 nought ∷ [])
unfolding ofBits fits
nought-is = (refl, refl)

nought-plus : nought ≡ plusZero
unfolding ofBits
nought-plus = refl

cleared : Cleared (replicate 256 nought) (replicate 256 nought) (replicate 19 nought) (replicate 1024 nought) (replicate 512 false)
cleared = record { ops = ap (replicate 256) nought-plus; ps = ap (replicate 256) nought-plus; cells = ap (replicate 19) nought-plus; edges = ap (replicate 1024) nought-plus; across = refl }
'''%(SP,P),False)
from prune import prune
for x in ('EntryCallees','interpret/Proof','run_charstring/Proof'): prune(D+x+'.antt')
