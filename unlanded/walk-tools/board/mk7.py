import sys; sys.path.insert(0,'$WORK/wt8')
from gen import *
from prune import prune
D='$WORK/b/crates/agreement/proofs/'
os.makedirs(D,exist_ok=True)
def pz(x): return "(%s)"%x if " " in x and not x.startswith("(") else x
stems=Ref("stems","sl","T.the-row","Stem"); commands=Ref("commands","sl","u64","ℕ")
charstring=Ref("charstring","shr","u8","ℕ"); bank=Ref("bank","shr","u8","ℕ"); iv=Num("iv","usize","w64")
programM=Ref("program","sl","u8","ℕ"); programS=Ref("program","shr","u8","ℕ"); out=Ref("out","sl","u8","ℕ"); bytesM=Ref("bytes","sl","u8","ℕ")
mat=Rec("m","Z","Matrix"); wid=Rec("p","X","Widths"); gly=Rec("g","G","Type2Glyph"); GLY=Rec("result","G","Type2Glyph")
CONV=lambda vs,o:"(convert (%s .now) (%s .now) %s %s (length %s) (length %s) (length %s))"%(vs['charstring']['x'],vs['bank']['x'],vs['iv']['v'],vs['m']['v'],vs['stems']['ys'],vs['commands']['ys'],vs[o]['ys'])
transformed=Fn("convert_charstring_transformed",[charstring,bank,iv,mat,stems,commands,out],"G.the-row",lambda vs,zs:"Converts %s %s %s (length %s) r %s %s %s"%(CONV(vs,'out'),vs['stems']['ys'],vs['commands']['ys'],vs['out']['ys'],pz(zs[4]),pz(zs[5]),pz(zs[6])),result=GLY,crate="type1_to_type2")
finish_glyph=Fn("finish_glyph",[gly,wid,programS,out],"G.the-row",lambda vs,zs:"Finishes %s %s (%s .now) (length %s) r %s"%(vs['g']['v'],vs['p']['v'],vs['program']['x'],vs['out']['ys'],pz(zs[3])),result=GLY)
wipe_bytes=Fn("wipe_bytes",[bytesM],"Nothing",lambda vs,zs:"%s ≡ replicate (length %s) 0"%(zs[0],vs['bytes']['ys']),result=Non())
entry=Fn("convert_finished",[charstring,bank,iv,mat,wid,stems,commands,programM,out],"G.the-row",lambda vs,zs:"ConvertsFinished (%s .now) (%s .now) %s %s %s %s %s %s %s (length %s) r %s %s %s %s"%(vs['charstring']['x'],vs['bank']['x'],vs['iv']['v'],vs['m']['v'],vs['p']['v'],CONV(vs,'program'),vs['stems']['ys'],vs['commands']['ys'],vs['program']['ys'],vs['out']['ys'],pz(zs[5]),pz(zs[6]),pz(zs[7]),pz(zs[8])),result=GLY)
IMP7=IMP+"""use Rattle·charstring.specs.Cipher.{Bytes}
use Rattle·type1_to_type2.specs.Convert.{convert}
use Rattle·type1_to_type2.specs.Entry.{Converts}
use %sFinished.{Finishes, ConvertsFinished}
"""%SP
fs=(transformed,finish_glyph,wipe_bytes)
t="-- What the entry has of each callee, in the form that `Many.antt`'s `asks-all` takes. Assumes `Given`, and that the callee's entry meets its contract.\n"+IMP7
for f in fs: t+="use %s as %s-f\nuse %s.Symbol.{name as %s}\n"%(f.mod,f.sym,f.mod,f.key)
t+="\n"+HEAD+"".join(contract(f) for f in fs)+HEAD.replace(" where"," (W : Given 𝓤 H A) (C : Calls 𝓤 H) where").rstrip("\n")
for f in fs: t+=f.as_lemma()
open(D+'EntryCallees.antt','w').write(t); prune(D+'EntryCallees.antt')
mx=machs("X"); 
open(D+'Locals.antt','w').write("-- The machine values of records, as the walk names them. Assumes nothing.\n"+IMP0[:IMP0.index("use %sLent."%L1)]+"\n"+mx.rstrip("\n")+"\n"); prune(D+'Locals.antt')
IMP7=IMP7+"use %sLocals.{machX}\n"%P
tt=open(D+'EntryCallees.antt').read()
if 'machX' in tt and 'Locals.{machX}' not in tt: open(D+'EntryCallees.antt','w').write(tt.replace("use %sFinished"%SP,"use %sLocals.{machX}\nuse %sFinished"%(P,SP),1))
def walk_text(f,text): return """    pub walk : ent 𝓤 (onEntry 𝓤 H A f.signature %s %s a vals) (WpFn 𝓤 H C Λ code.function args Post)
    walk =
        %s
"""%(nest(["κ"+r.name for r in f.refs]),nest(["q"+r.name for r in f.refs]),text)
f=entry; N=int(sys.argv[1]) if len(sys.argv)>1 else 25
w=M(f,N); w.begin(None,None,None)
w.open("knows-bytes ! tt xcharstring (λ octets. "); w.front("ownbank","lftbank"); w.open("knows-bytes ! tt xbank (λ octets′. ")
LOC=eval(open('$WORK/wt8/loc.txt').read())
w.again(stems,6,LOC['s'][0],LOC['s'][1]); w.again(commands,7,LOC['c'][0],LOC['c'][1]); w.again(programM,8,LOC['p'][0],LOC['p'][1])
w.call(transformed,{'charstring':'charstring','bank':'bank','stems':'stems','commands':'commands','out':'program'},[("iv","iv-fits"),("m","m-fits")],[1,2,3,4,LOC['s'][1],LOC['c'][1],LOC['p'][1]],LOC['g'],lands(LOC['g'],"G","tGt"))
p1=w.cur['program']['ys']; l1=w.cur['program']['e']
w.again(programM,8,LOC['q'][0],LOC['q'][1]); w.rewrite(LOC['q'][1],"(sliceTy (tB erased))","n : ℕ","(sliceVal (bprogram, oprogram) n)","sym (%s)"%l1); w.again(out,9,LOC['o'][0],LOC['o'][1])
w.call(finish_glyph,{'program':'program','out':'out'},[("r1","mineG r1 w1 is1"),("p","p-fits")],[LOC['g'],5,LOC['q'][1],LOC['o'][1]],LOC['r'],lands(LOC['r'],"G","tGt"))
w.again(programM,8,LOC['w'][0],LOC['w'][1]); w.call(wipe_bytes,{'bytes':'program'},[],[LOC['w'][1]],LOC['u'],lands_unit(LOC['u']))
w.set(0,"(of-opd ! %s)"%w.ld(LOC['r']),"(typedG 𝓤 H A W r2 _ (mineG r2 w2 is2))")
c=w.cur
w.leave("r2","(mineG r2 w2 is2)","converts-finished (xcharstring .now) (xbank .now) iv m p ysstems yscommands ysprogram (length ysout) r1 r2 %s %s %s %s %s octets octets′ e1 (%s) e2 (e3 ∙ ap (λ (k : ℕ). replicate k 0) (%s))"%(c['stems']['ys'],c['commands']['ys'],p1,c['program']['ys'],c['out']['ys'],l1,l1),within=None)
knowns=fs
os.makedirs(D+f.name,exist_ok=True)
t="-- `agreement::convert_finished` meets its contract: a walk of its MIR, by hand. It lends the stores to converting, the program and the output to finishing, and wipes the program.\n-- Assumes nothing.\n"+IMP7+use_syms(knowns)+"""use %(P)s%(n)s.Key.{name as #agreement·%(s)s}
use %(P)s%(n)s as f
use %(P)s%(n)s.Statement as stated
use %(P)s%(n)s.Code as code
use %(P)s%(n)s.Code.Mir as text
use %(P)sEntryCallees.{%(cs)s}
use Rattle·type1.proofs.Octets.{knows-bytes}
use %(SP)sFinishedLaws.{converts-finished}
"""%dict(P=P,SP=SP,n=f.name,s=f.sym,cs=", ".join([g.C for g in knowns]+[g.sym+"-as" for g in knowns]))+typed("ZGX")+frame(f)+"  module _ %s where\n"%known_binders(knowns)+walk_text(f,w.text())+closing(f,knowns)
open(D+f.name+'/Proof.antt','w').write(t); prune(D+f.name+'/Proof.antt')
