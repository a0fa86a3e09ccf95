import sys; sys.path.insert(0,'$WORK/wt5')
from mk5 import *
INTR=Rec("ri","I","Interpreted"); GLY=Rec("result","G","Type2Glyph"); PLAN=Rec("p","Q","Plan"); CHK=Rec("k","Y","Checked")
commandsM=Ref("commands","sl","u64","ℕ")
charstring=Ref("charstring","shr","u8","ℕ"); bank=Ref("bank","shr","u8","ℕ"); iv=usz("iv")
u64n=lambda n: Num(n,"u64","w64")
is_identity=Fn("is_identity",[mat],"bool",lambda vs,zs:"r ≡ isIdentity %s"%vs['m']['v'],result=Boo("result"))
check_entries=Fn("check_entries",[commands,usz("entries"),mat,idn],"Y.the-row",lambda vs,zs:"Checks %s %s (%s .now) r"%(vs['m']['v'],vs['entries']['v'],vs['commands']['x']),
    req=lambda vs:"(14 * %s ≤ length (%s .now)) × ((%s ≡ isIdentity %s) × ((e : ℕ) → e < %s → All (OfCommand Good) (commandIn (%s .now) e)))"%(vs['entries']['v'],vs['commands']['x'],vs['identity']['v'],vs['m']['v'],vs['entries']['v'],vs['commands']['x']),result=Rec("result","Y","Checked"))
none_collected=Fn("none_collected",[CHK],"K.the-row",lambda vs,zs:"r ≡ noneOf %s"%vs['k']['v'],result=COL)
make_plan=Fn("make_plan",[u64n("number"),CHK,col,mat,INTR],"Q.the-row",lambda vs,zs:"Planned %s %s %s %s (%s .width) r"%tuple(vs[x]['v'] for x in ('number','k','c','m','ri')),req=lambda vs:"Counted %s"%vs['c']['v'],result=Rec("result","Q","Plan"))
begin_program=Fn("begin_program",[PLAN,acrossS,uprightS,out],"R.the-row",lambda vs,zs:"Opens %s (%s .now) (%s .now) (length %s) r %s"%(vs['p']['v'],vs['across']['x'],vs['upright']['x'],vs['out']['ys'],pz(zs[3])),req=lambda vs:"%s .across + %s .upright ≤ 96"%(vs['p']['v'],vs['p']['v']),result=WRI)
end_program=Fn("end_program",[PLAN,INTR,wri,out],"G.the-row",lambda vs,zs:"Answers (writes (%s .width) (%s .ran) (resumedAll false [] %s %s [])) (length %s) r %s"%(vs['p']['v'],vs['ri']['v'],vs['wr']['v'],vs['out']['ys'],vs['out']['ys'],pz(zs[3])),result=GLY)
first_number=Fn("first_number",[mat,u64n("number")],"u64",lambda vs,zs:"r ≡ firstNumber %s %s"%(vs['m']['v'],vs['number']['v']),result=u64n("result"))
wipe_words=Fn("wipe_words",[commandsM],"Nothing",lambda vs,zs:"%s ≡ replicate (length %s) 0"%(zs[0],vs['commands']['ys']),result=Non())
wipe=Fn("wipe",[stems],"Nothing",lambda vs,zs:"%s ≡ replicate (length %s) zeroStem"%(zs[0],vs['stems']['ys']),result=Non(),crate="type1")
convert_run=Fn("convert_run",[INTR,u64n("number"),mat,stems,commandsM,acrossM,uprightM,maskM,out],"G.the-row",
    lambda vs,zs:"(%s ≡ %s) × ((%s ≡ %s) × Answers (fromRun %s %s (length %s) %s %s %s) (length %s) r %s)"%(zs[3],vs['stems']['ys'],zs[4],vs['commands']['ys'],vs['number']['v'],vs['m']['v'],vs['out']['ys'],vs['ri']['v'],vs['commands']['ys'],vs['stems']['ys'],vs['out']['ys'],pz(zs[8])),
    req=lambda vs:"Stored (%s .entries) %s %s × Blank %s %s %s"%(vs['ri']['v'],vs['commands']['ys'],vs['stems']['ys'],vs['across']['ys'],vs['upright']['ys'],vs['mask']['ys']),result=GLY)
OUTC=lambda vs:"(outcome (%s .now) (%s .now) %s (length %s) (length %s))"%(vs['charstring']['x'],vs['bank']['x'],vs['iv']['v'],vs['stems']['ys'],vs['commands']['ys'])
run_charstring=Fn("run_charstring",[charstring,bank,iv,commandsM,stems],"I.the-row",lambda vs,zs:"Leaves r %s %s %s %s %s"%(pz(zs[3]),pz(zs[4]),vs['commands']['ys'],vs['stems']['ys'],OUTC(vs)),result=Rec("result","I","Interpreted"),crate="type1")
def CV(vs,m,z,c,o): return "Converts (convert (%s .now) (%s .now) %s %s (length %s) (length %s) (length %s)) %s %s (length %s) r %s %s %s"%(vs['charstring']['x'],vs['bank']['x'],vs['iv']['v'],m,vs['stems']['ys'],vs['commands']['ys'],vs['out']['ys'],vs['stems']['ys'],vs['commands']['ys'],vs['out']['ys'],pz(z),pz(c),pz(o))
transformed=Fn("convert_charstring_transformed",[charstring,bank,iv,mat,stems,commandsM,out],"G.the-row",lambda vs,zs:CV(vs,vs['m']['v'],zs[4],zs[5],zs[6]),result=GLY)
plain_=Fn("convert_charstring",[charstring,bank,iv,stems,commandsM,out],"G.the-row",lambda vs,zs:CV(vs,"identity",zs[3],zs[4],zs[5]),result=GLY)
identity_=Fn("Matrix_identity",[],"Z.the-row",lambda vs,zs:"r ≡ identity",result=Rec("result","Z","Matrix"),crate="geometry")
EDEFS='''use Rattle·geometry.specs.Transform.{identity}
use %sInterpret.{outcome, Leaves}
use %sConvert.{writes, convert}
use %sEntry.{Blank, Checks, noneOf, Planned, Opens, firstNumber, fromRun, Answers, Converts}
'''%(S1,SP,SP)
import mk5
IMP6=IMP5+EDEFS
def callees6(name,fs,note):
    t=note+IMP6
    for f in fs: t+="use %s as %s-f\nuse %s.Symbol.{name as %s}\n"%(f.mod,f.sym,f.mod,f.key)
    t+="\n"+HEAD+"".join(contract(f) for f in fs)+HEAD.replace(" where"," (W : Given 𝓤 H A) (C : Calls 𝓤 H) where").rstrip("\n")
    for f in fs: t+=f.as_lemma()
    open(D+name+'.antt','w').write(t); prune(D+name+'.antt')
def leaf6(f,knowns,recs,text,extra,uses,note):
    os.makedirs(D+f.name,exist_ok=True)
    t="-- `type1_to_type2::%s` meets its contract: a walk of its MIR, by hand. %s\n-- Assumes nothing.\n"%(f.name,note)+IMP6+use_syms(knowns)+'''use %(P)s%(n)s.Key.{name as #type1-to-type2·%(s)s}
use %(P)s%(n)s as f
use %(P)s%(n)s.Statement as stated
use %(P)s%(n)s.Code as code
use %(P)s%(n)s.Code.Mir as text
use %(P)sEntryCallees.{%(cs)s}
'''%dict(P=P,n=f.name,s=f.sym,cs=", ".join([g.C for g in knowns]+[g.sym+"-as" for g in knowns]))+uses+typed(recs)+frame(f)+"  module _ %s%s where\n"%(known_binders(knowns),extra)+text+closing(f,knowns)
    open(D+f.name+'/Proof.antt','w').write(t); prune(D+f.name+'/Proof.antt')
def walk_text(f,text): return '''    pub walk : ent 𝓤 (onEntry 𝓤 H A f.signature %s %s a vals) (WpFn 𝓤 H C Λ code.function args Post)
    walk =
        %s
'''%(nest(["κ"+r.name for r in f.refs]),nest(["q"+r.name for r in f.refs]),text)
def owedf(m,val,mv,is_,k): return "(LL.owed %s.the-type %s′.the-laws %s (%s ∷ []) %s)"%(m,m,val,mv,is_)+" .1"*k+" .0"
def res(m,k,i): return "(%s)"%owed(m,k)+" .1"*i+" .0"
CALLEES=(is_identity,check_entries,none_collected,collect_all,make_plan,begin_program,write_all,end_program,first_number,wipe_words,wipe,run_charstring,convert_run,identity_,transformed)
def mk_convert_run():
    f=convert_run; N=40; w=M(f,N); w.begin(None,None,None)
    ENT=("(ri .entries)",owedf("I","ri","machI ri","ri-fits",3)+" .1"); ent=lambda s:s.fldp(1,3)
    w.call(is_identity,{},[("m","m-fits")],[3],10,lands_bool(10))
    w.again(commandsM,5,16,17)
    w.call(check_entries,{'commands':'commands'},[ENT,("m","m-fits"),("r1",None)],[17,ent,3,10],11,lands(11,"Y","tYt"),"(need .0 .words, (e1, need .0 .finite))")
    w.again(stems,4,18,19); w.again(commandsM,5,20,21)
    w.call(none_collected,{},[("r2","mineY r2 w2 is2")],[11],22,lands(22,"K","tKt"))
    w.again(acrossM,6,23); w.again(uprightM,7,24)
    w.call(collect_all,{'stems':'stems','commands':'commands','across':'across','upright':'upright'},[ENT,("m","m-fits"),("r1",None),("r3","mineK r3 w3 is3")],[19,21,ent,3,10,22,23,24],12,lands(12,"K","tKt"),"(need .0, (e1, few-none r2 r3 e3))")
    ta,tu,z1=w.cur['across']['ys'],w.cur['upright']['ys'],w.cur['stems']['ys']
    w.call(make_plan,{},[("number","number-fits"),("r2","mineY r2 w2 is2"),("r4","mineK r4 w4 is4"),("m","m-fits"),("ri","ri-fits")],[2,11,12,3,1],13,lands(13,"Q","tQt"),"(e4 .1 .1 .1)")
    w.again(acrossS,6,25); w.again(uprightS,7,26); w.again(out,9,27,28)
    w.call(begin_program,{'across':'across','upright':'upright','out':'out'},[("r5","mineQ r5 w5 is5")],[13,25,26,28],14,lands(14,"R","tRt"),"(e5 .few)")
    o1=w.cur['out']['ys']
    w.again(stems,4,29,30); w.again(commandsM,5,31,32); w.again(acrossS,6,33); w.again(uprightS,7,34); w.again(maskM,8,35); w.again(out,9,36,37)
    O5=[res("Q",5,i) for i in range(5)]
    w.call(write_all,{x:x for x in ('stems','commands','across','upright','mask','out')},[ENT,("m","m-fits"),("r1",None),("(r5 .masked)",None),("(r5 .across)",O5[2]+" .1"),("(r5 .upright)",O5[3]+" .1"),("r6","mineR r6 w6 is6")],[30,32,ent,3,10,lambda s:s.fldp(13,1),lambda s:s.fldp(13,2),lambda s:s.fldp(13,3),33,34,35,14,37],15,lands(15,"R","tRt"),"(subst (Stored (ri .entries) yscommands) (sym (e4 .0)) (need .0), (e1, (e5 .few, need .1 .mask-len)))")
    o2=w.cur['out']['ys']; l2=w.cur['out']['e']
    w.again(out,9,38,39)
    w.call(end_program,{'out':'out'},[("r5","mineQ r5 w5 is5"),("ri","ri-fits"),("r7","mineR r7 w7 is7")],[13,1,15,39],0,lands(0,"G","tGt"))
    o3=w.cur['out']['ys']
    w.leave("r8","(mineG r8 w8 is8)","(e7 .0 ∙ e4 .0, (refl, run-answers number m ri yscommands ysstems (length ysout) r2 r3 r4 ysacross ysupright %s %s r5 r6 r7 %s %s %s r8 %s (need .1 .across-len) (need .1 .upright-len) e2 e3 (e4 .1) e5 e6 (e4 .0) (e7 .1) (%s) e8))"%(ta,tu,o1,o2,o3,z1,l2),within=None)
    leaf6(f,(is_identity,check_entries,none_collected,collect_all,make_plan,begin_program,write_all,end_program),"TZKRGIYQ",walk_text(f,w.text())," (need : %s)"%f.req(f.stdvs()),"use %sRunLaws.{few-none, run-answers}\n"%P,"It lends the stores and the tables to each part in turn.")
def mk_entry():
    f=transformed; N=32; w=M(f,N); w.begin(None,None,None)
    locs=[(8,acrossM),(9,uprightM),(10,maskM)]
    for i,r in locs:
        b=r.row=="bool"; zero="false" if b else "nought"; u="(vbool false)" if b else "(vfloat binary64 nought)"
        IS="(repeat-is %s %s %s %s %d)"%(r.row,zero,u,"refl" if b else "nought-is",r.n)
        law="bool-lawful 𝓤 H A W" if b else "float-lawful 𝓤 H A W binary64"; mk="bool-makes 𝓤 H A W" if b else "float-makes 𝓤 H A W binary64"
        w.set(i,"(rep ! %d %s)"%(r.n,"(false-lit !)" if b else "(float-lit ! tt)"),"(array-lawful 𝓤 H A W %s (%s) %d .typed (replicate %d %s) (arrayVal (replicate %d %s) ∷ []) %s .0)"%(r.row,law,r.n,r.n,zero,r.n,u,IS))
        w.emit("owned ! %s (Is %s) (array-makes 𝓤 H A W %s (%s) %d) (replicate %d %s) _ %s $ "%(r.target,r.target,r.row,mk,r.n,r.n,zero,IS)); w.ctx=["own"+r.name]+w.ctx
        w.front("_%d"%i,"own"+r.name)
        w.open("lend-local ! tt %s refl (replicate %d %s) (λ ν%s δ%s. "%(r.target,r.n,zero,r.name,r.name))
        w.ctx=["own"+r.name,"lft"+r.name,"loc"+r.name]+w.ctx[2:]
        w.extra[r.name]=r; w.cur[r.name]=dict(κ="(ν%s ∷ [])"%r.name,q="fullShare",b="l"+sub(i),o="0",γ="δ"+r.name,ys="(replicate %d %s)"%(r.n,zero),e="refl")
    w.again(commandsM,6,14,15); w.again(stems,5,16,17)
    w.call(run_charstring,{x:x for x in ('charstring','bank','commands','stems')},[("iv","iv-fits")],[1,2,3,15,17],11,lands(11,"I","tIt"))
    c1,z1=w.cur['commands']['ys'],w.cur['stems']['ys']
    OUT=OUTC(f.stdvs())
    w.call(first_number,{},[("m","m-fits"),("(r1 .number)",res("I",1,0)+" .1")],[4,lambda s:s.fldp(11,0)],12,lands_num(12,"word","w64"))
    w.again(stems,5,18,19); w.again(commandsM,6,20,21)
    for (i,r),d in zip(locs,(22,23,24)): w.set(d,"(addr ! (from ! (stop !)))","(tt, tt)")
    w.again(out,7,25,26)
    w.call(convert_run,{x:x for x in ('stems','commands','across','upright','mask','out')},[("r1","mineI r1 w1 is1"),("r2","is2 .1"),("m","m-fits")],[11,12,4,19,21,22,23,24,26],13,lands(13,"G","tGt"),"(left-stored r1 %s %s yscommands ysstems %s e1, blank)"%(c1,z1,OUT))
    c3,z3=w.cur['commands']['ys'],w.cur['stems']['ys']; lc,lz=w.cur['commands']['e'],w.cur['stems']['e']
    w.again(stems,5,28,29); w.call(wipe,{'stems':'stems'},[],[29],27,lands_unit(27))
    w.again(commandsM,6,30,31); w.call(wipe_words,{'commands':'commands'},[],[31],27,lands_unit(27))
    w.set(0,"(of-opd ! %s)"%w.ld(13),"(typedG 𝓤 H A W r3 _ (mineG r3 w3 is3))")
    for i,r in locs:
        w.front("own"+r.name,"lft"+r.name,"loc"+r.name)
        w.open("local-back ! tt %s refl %s (λ v%s. "%(r.target,w.cur[r.name]['ys'],r.name)); w.ctx=["_%d"%i]+w.ctx[3:]
    w.leave("r3","(mineG r3 w3 is3)","entry-answers (xcharstring .now) (xbank .now) iv m ysstems yscommands (length ysout) r1 %s %s e1 r2 e2 r3 %s %s %s (e3 .1 .1) %s %s (e4 ∙ ap (λ (k : ℕ). replicate k zeroStem) (%s)) (e5 ∙ ap (λ (k : ℕ). replicate k 0) (%s))"%(c1,z1,z3,c3,w.cur['out']['ys'],w.cur['stems']['ys'],w.cur['commands']['ys'],lz,lc),within=None)
    leaf6(f,(run_charstring,first_number,convert_run,wipe,wipe_words),"TZGI",walk_text(f,w.text()),"",'''use lib.Ieee.{ofBits, fits}
use lib.ListN.{length-replicate}
use mir.Val.{vfloat}
use types.Run.{float-lit, false-lit}
use types.Part.{rep}
use denote.Array.{arrayVal, array-lawful, array-makes}
use denote.Floats.{float-lawful, float-makes}
use %sLentLocal.{repeat-is, lend-local, local-back}
use %sRunLaws.{left-stored, entry-answers}

abbrev nought : Float
nought = ofBits binary64 0

nought-is : Is f64 nought (vfloat binary64 nought ∷ [])
unfolding ofBits fits
nought-is = (refl, refl)

blank : Blank (replicate 192 nought) (replicate 192 nought) (replicate 96 false)
blank = record { across-len = length-replicate 192 nought; upright-len = length-replicate 192 nought; mask-len = length-replicate 96 false }
'''%(L1,P),"Its arrays are zero, are lent to `convert_run`, and die; both stores are wiped.")
identity_.sym="Matrix·identity"; identity_.key="#geometry·Matrix·identity"; identity_.mod="Rattle·geometry.proofs.Matrix.identity"; identity_.C="IdentityC"
def mk_plain():
    f=plain_; N=14; w=M(f,N); w.begin(None,None,None)
    w.call(identity_,{},[],[],7,lands(7,"Z","tZt"))
    w.again(stems,4,8,9); w.again(commandsM,5,10,11); w.again(out,6,12,13)
    w.call(transformed,{x:x for x in ('charstring','bank','stems','commands','out')},[("iv","iv-fits"),("r1","mineZ r1 w1 is1")],[1,2,3,7,9,11,13],0,lands(0,"G","tGt"))
    vs=f.stdvs(); c=w.cur
    w.leave("r2","(mineG r2 w2 is2)","subst (λ (x : Matrix). Converts (convert (xcharstring .now) (xbank .now) iv x (length ysstems) (length yscommands) (length ysout)) ysstems yscommands (length ysout) r2 %s %s %s) e1 e2"%(c['stems']['ys'],c['commands']['ys'],c['out']['ys']),within=None)
    leaf6(f,(identity_,transformed),"ZG",walk_text(f,w.text()),"","","It lends the stores and the output to `convert_charstring_transformed`.")
if __name__=="__main__":
    mk5.mk_collect_group(); mk5.mk_mark_group(); mk5.mk_collect_all(); mk5.mk_write_all()
    open(D+'Locals.antt','w').write(locals_file()); prune(D+'Locals.antt')
    callees6('EntryCallees',CALLEES,"-- What the entry has of each callee, in the form that `Many.antt`'s `asks-all` takes. Assumes `Given`, and that the callee's entry meets its contract.\n")
    mk_convert_run(); mk_entry(); mk_plain()
