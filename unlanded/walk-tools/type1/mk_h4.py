import sys; sys.path.insert(0,'$WORK/h/h3t/new')
from mk6 import *
convert_stored=Fn("convert_stored",[INTR,u64n("number"),mat,stems,commandsM,out],"G.the-row",
    lambda vs,zs:"(%s ≡ %s) × ((%s ≡ %s) × Answers (fromRun %s %s (length %s) %s %s %s) (length %s) r %s)"%(zs[3],vs['stems']['ys'],zs[4],vs['commands']['ys'],vs['number']['v'],vs['m']['v'],vs['out']['ys'],vs['ri']['v'],vs['commands']['ys'],vs['stems']['ys'],vs['out']['ys'],pz(zs[5])),
    req=lambda vs:"Stored (%s .entries) %s %s"%(vs['ri']['v'],vs['commands']['ys'],vs['stems']['ys']),result=GLY)
USES='''use lib.Ieee.{ofBits, fits}
use lib.ListN.{length-replicate}
use mir.Val.{vfloat}
use types.Run.{float-lit, false-lit}
use types.Part.{rep}
use denote.Array.{arrayVal, array-lawful, array-makes}
use denote.Floats.{float-lawful, float-makes}
use %sLentLocal.{repeat-is, lend-local, local-back}

abbrev nought : Float
nought = ofBits binary64 0

nought-is : Is f64 nought (vfloat binary64 nought ∷ [])
unfolding ofBits fits
nought-is = (refl, refl)

blank : Blank (replicate 192 nought) (replicate 192 nought) (replicate 96 false)
blank = record { across-len = length-replicate 192 nought; upright-len = length-replicate 192 nought; mask-len = length-replicate 96 false }
'''%L1
def mk_stored():
    f=convert_stored; N=19; w=M(f,N); w.begin(None,None,None)
    locs=[(7,acrossM),(8,uprightM),(9,maskM)]
    for i,r in locs:
        b=r.row=="bool"; zero="false" if b else "nought"; u="(vbool false)" if b else "(vfloat binary64 nought)"
        IS="(repeat-is %s %s %s %s %d)"%(r.row,zero,u,"refl" if b else "nought-is",r.n)
        law="bool-lawful 𝓤 H A W" if b else "float-lawful 𝓤 H A W binary64"; mk="bool-makes 𝓤 H A W" if b else "float-makes 𝓤 H A W binary64"
        w.set(i,"(rep ! %d %s)"%(r.n,"(false-lit !)" if b else "(float-lit ! tt)"),"(array-lawful 𝓤 H A W %s (%s) %d .typed (replicate %d %s) (arrayVal (replicate %d %s) ∷ []) %s .0)"%(r.row,law,r.n,r.n,zero,r.n,u,IS))
        w.emit("owned ! %s (Is %s) (array-makes 𝓤 H A W %s (%s) %d) (replicate %d %s) _ %s $ "%(r.target,r.target,r.row,mk,r.n,r.n,zero,IS)); w.ctx=["own"+r.name]+w.ctx
        w.front("_%d"%i,"own"+r.name)
        w.open("lend-local ! tt %s refl (replicate %d %s) (λ ν%s δ%s. "%(r.target,r.n,zero,r.name,r.name))
        w.ctx=["own"+r.name,"lft"+r.name,"loc"+r.name]+w.ctx[2:]
        w.extra[r.name]=r; w.cur[r.name]=dict(κ="(ν%s ∷ [])"%r.name,q="fullShare",b="l"+sub(i),o="0",γ="δ"+r.name,ys="(replicate %d %s)"%(r.n,zero),e="refl")
    w.again(stems,4,10,11); w.again(commandsM,5,12,13)
    for (i,r),d in zip(locs,(14,15,16)): w.set(d,"(addr ! (from ! (stop !)))","(tt, tt)")
    w.again(out,6,17,18)
    w.call(convert_run,{x:x for x in ('stems','commands','across','upright','mask','out')},[("ri","ri-fits"),("number","number-fits"),("m","m-fits")],[1,2,3,11,13,14,15,16,18],0,lands(0,"G","tGt"),"(need, blank)")
    for i,r in locs:
        w.front("own"+r.name,"lft"+r.name,"loc"+r.name)
        w.open("local-back ! tt %s refl %s (λ v%s. "%(r.target,w.cur[r.name]['ys'],r.name)); w.ctx=["_%d"%i]+w.ctx[3:]
    w.leave("r1","(mineG r1 w1 is1)","e1",within=None)
    leaf6(f,(convert_run,),"TZGI",walk_text(f,w.text())," (need : %s)"%f.req(f.stdvs()),USES,"Its arrays are zero, are lent to `convert_run`, and die.")
def mk_entry4():
    f=transformed; N=26; w=M(f,N); w.begin(None,None,None)
    w.again(commandsM,6,11,12); w.again(stems,5,13,14)
    w.call(run_charstring,{x:x for x in ('charstring','bank','commands','stems')},[("iv","iv-fits")],[1,2,3,12,14],8,lands(8,"I","tIt"))
    c1,z1=w.cur['commands']['ys'],w.cur['stems']['ys']
    OUT=OUTC(f.stdvs())
    w.call(first_number,{},[("m","m-fits"),("(r1 .number)",res("I",1,0)+" .1")],[4,lambda s:s.fldp(8,0)],9,lands_num(9,"word","w64"))
    w.again(stems,5,15,16); w.again(commandsM,6,17,18); w.again(out,7,19,20)
    w.call(convert_stored,{x:x for x in ('stems','commands','out')},[("r1","mineI r1 w1 is1"),("r2","is2 .1"),("m","m-fits")],[8,9,4,16,18,20],10,lands(10,"G","tGt"),"(left-stored r1 %s %s yscommands ysstems %s e1)"%(c1,z1,OUT))
    c3,z3=w.cur['commands']['ys'],w.cur['stems']['ys']; lc,lz=w.cur['commands']['e'],w.cur['stems']['e']
    w.again(stems,5,22,23); w.call(wipe,{'stems':'stems'},[],[23],21,lands_unit(21))
    w.again(commandsM,6,24,25); w.call(wipe_words,{'commands':'commands'},[],[25],21,lands_unit(21))
    w.set(0,"(of-opd ! %s)"%w.ld(10),"(typedG 𝓤 H A W r3 _ (mineG r3 w3 is3))")
    w.emit("owned ! G.the-row (Is G.the-row) ..." if False else "")
    w.leave("r3","(mineG r3 w3 is3)","entry-answers (xcharstring .now) (xbank .now) iv m ysstems yscommands (length ysout) r1 %s %s e1 r2 e2 r3 %s %s %s (e3 .1 .1) %s %s (e4 ∙ ap (λ (k : ℕ). replicate k zeroStem) (%s)) (e5 ∙ ap (λ (k : ℕ). replicate k 0) (%s))"%(c1,z1,z3,c3,w.cur['out']['ys'],w.cur['stems']['ys'],w.cur['commands']['ys'],lz,lc),within=None)
    leaf6(f,(run_charstring,first_number,convert_stored,wipe,wipe_words),"TZGI",walk_text(f,w.text()),"","use %sRunLaws.{left-stored, entry-answers}\n"%P,"What the run left is converted by `convert_stored`; both stores are wiped.")
mk_stored(); mk_entry4()
# EntryCallees: spliced into the file of the repository
R='$WORK/h4/crates/type1_to_type2/proofs/'
import shutil
s=open(R+'EntryCallees.antt').read()
if 'ConvertStoredC' not in s:
    a="use %s.Symbol.{name as %s}\n"%(convert_run.mod,convert_run.key); assert s.count(a)==1
    s=s.replace(a,a+"use %s as %s-f\nuse %s.Symbol.{name as %s}\n"%(convert_stored.mod,convert_stored.sym,convert_stored.mod,convert_stored.key))
    c=contract(convert_run); assert s.count(c)==1
    s=s.replace(c,c+contract(convert_stored))
    l="\n  pub Matrix·identity-as"; assert s.count(l)==1
    s=s.replace(l,convert_stored.as_lemma()+l)
    open(R+'EntryCallees.antt','w').write(s)
for n in ('convert_stored','convert_charstring_transformed'):
    os.makedirs(R+n,exist_ok=True); shutil.copy(D+n+'/Proof.antt',R+n+'/Proof.antt')
