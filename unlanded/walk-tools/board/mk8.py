import sys; sys.path.insert(0,'$WORK/wt8')
import many
from gen import *
from prune import prune
D='$WORK/b/crates/board/proofs/'
def pz(x): return "(%s)"%x if " " in x and not x.startswith("(") else x
class Flt(Num):
    ty="Float"
    def __init__(s,name): s.name=name; s.row="f64"; s.w=None
    def mv(s,v): return "vfloat binary64 %s"%v
    def make(s,v,fit): return "owned ! f64 (Is f64) (float-makes 𝓤 H A W binary64) %s _ (refl, %s) $ "%(v,fit)
    def fitT(s): return "fits binary64 %s ≡ true"%s.name
    def passT(s): return "(tt, passes (fits binary64 %s) %s-fits)"%(s.name,s.name)
    def valsT(s): return "float-vals binary64"
    def tellsT(s): return "float-tells binary64"
    def fitOf(s,are): return "(%s .1)"%are
stems=Ref("stems","sl","T.the-row","Stem"); commands=Ref("commands","sl","u64","ℕ")
charstring=Ref("charstring","shr","u8","ℕ"); bank=Ref("bank","shr","u8","ℕ"); iv=Num("iv","usize","w64")
programM=Ref("program","sl","u8","ℕ"); out=Ref("out","sl","u8","ℕ")
matrix=Ref("matrix","sa","f64","Float",6); answer=Ref("answer","arr","u64","ℕ",4)
mat=Rec("m","Z","Matrix"); wid=Rec("p","X","Widths"); gly=Rec("g","G","Type2Glyph"); GLY=Rec("result","G","Type2Glyph"); RES=Num("result","u64","w64")
dw=Flt("dw"); nw=Flt("nw")
CONVM=lambda vs,o,m:"(convert (%s .now) (%s .now) %s %s (length %s) (length %s) (length %s))"%(vs['charstring']['x'],vs['bank']['x'],vs['iv']['v'],m,vs['stems']['ys'],vs['commands']['ys'],vs[o]['ys'])
CONV=lambda vs,o:CONVM(vs,o,vs['m']['v'])
MAT=lambda vs:"(matrixOf (%s .now))"%vs['matrix']['x']
WID=lambda vs:"(widthsOf %s %s)"%(vs['dw']['v'],vs['nw']['v'])
matrix_of=Fn("matrix_of",[matrix],"Z.the-row",lambda vs,zs:"r ≡ matrixOf (%s .now)"%vs['matrix']['x'],result=Rec("result","Z","Matrix"),crate="board")
widths_of=Fn("widths_of",[dw,nw],"X.the-row",lambda vs,zs:"r ≡ widthsOf %s %s"%(vs['dw']['v'],vs['nw']['v']),result=Rec("result","X","Widths"),crate="board")
put_glyph=Fn("put_glyph",[gly,answer],"u64",lambda vs,zs:"(r ≡ %s .number) × Filled 4 %s %s (glyphWords %s)"%(vs['g']['v'],vs['answer']['ys'],pz(zs[1]),vs['g']['v']),req=lambda vs:"So (finite (%s .width))"%vs['g']['v'],result=RES,crate="board")
transformed=Fn("convert_charstring_transformed",[charstring,bank,iv,mat,stems,commands,out],"G.the-row",lambda vs,zs:"Converts %s %s %s (length %s) r %s %s %s"%(CONV(vs,'out'),vs['stems']['ys'],vs['commands']['ys'],vs['out']['ys'],pz(zs[4]),pz(zs[5]),pz(zs[6])),result=GLY,crate="type1_to_type2")
finishedF=Fn("convert_finished",[charstring,bank,iv,mat,wid,stems,commands,programM,out],"G.the-row",lambda vs,zs:"ConvertsFinished (%s .now) (%s .now) %s %s %s %s %s %s %s (length %s) r %s %s %s %s"%(vs['charstring']['x'],vs['bank']['x'],vs['iv']['v'],vs['m']['v'],vs['p']['v'],CONV(vs,'program'),vs['stems']['ys'],vs['commands']['ys'],vs['program']['ys'],vs['out']['ys'],pz(zs[5]),pz(zs[6]),pz(zs[7]),pz(zs[8])),result=GLY,crate="agreement")
entry1=Fn("cribstork_convert",[charstring,bank,iv,matrix,stems,commands,out,answer],"u64",lambda vs,zs:"BoardConverts %s %s %s (length %s) r %s %s %s %s %s"%(CONVM(vs,'out',MAT(vs)),vs['stems']['ys'],vs['commands']['ys'],vs['out']['ys'],pz(zs[4]),pz(zs[5]),pz(zs[6]),vs['answer']['ys'],pz(zs[7])),result=RES,crate="board")
entry2=Fn("cribstork_convert_finished",[charstring,bank,iv,matrix,stems,commands,programM,dw,nw,out,answer],"u64",lambda vs,zs:"BoardFinishes (%s .now) (%s .now) %s %s %s %s %s %s %s (length %s) r %s %s %s %s %s %s"%(vs['charstring']['x'],vs['bank']['x'],vs['iv']['v'],MAT(vs),WID(vs),CONVM(vs,'program',MAT(vs)),vs['stems']['ys'],vs['commands']['ys'],vs['program']['ys'],vs['out']['ys'],pz(zs[4]),pz(zs[5]),pz(zs[6]),pz(zs[9]),vs['answer']['ys'],pz(zs[10])),result=RES,crate="board")
IMP8=IMP+"""use mir.Val.{vfloat}
use lib.Ieee.{fits}
use lib.Ieee.Scale.{finite}
use denote.Floats.{passes, float-vals, float-tells, float-makes}
use Rattle·type1_to_type2.specs.Convert.{convert}
use Rattle·type1_to_type2.specs.Entry.{Converts}
use Rattle·agreement.specs.Finished.{ConvertsFinished}
use Rattle·agreement.proofs.Locals.{machX}
use %sAnswers.{Filled, matrixOf, widthsOf, glyphWords, BoardConverts, BoardFinishes}
"""%SP
fs=(matrix_of,widths_of,put_glyph,finishedF)
t="-- What the two functions that hold the stem store have of each callee, in the form that `Many.antt`'s `asks-all` takes. Assumes `Given`, and that the callee's entry meets its contract.\n"+IMP8
for f in fs: t+="use %s as %s-f\nuse %s.Symbol.{name as %s}\n"%(f.mod,f.sym,f.mod,f.key)
t+="\n"+HEAD+"".join(contract(f) for f in fs)+HEAD.replace(" where"," (W : Given 𝓤 H A) (C : Calls 𝓤 H) where").rstrip("\n")
for f in fs: t+=f.as_lemma()
open(D+'EntryCallees.antt','w').write(t); prune(D+'EntryCallees.antt')
open(D+'Lib.antt','w').write("pub mod EntryCallees\npub mod Words\n")
def walk_text(f,text): return """    pub walk : ent 𝓤 (onEntry 𝓤 H A f.signature %s %s a vals) (WpFn 𝓤 H C Λ code.function args Post)
    walk =
        %s
"""%(nest(["κ"+r.name for r in f.refs]),nest(["q"+r.name for r in f.refs]),text)
def write(f,w,knowns,what):
    os.makedirs(D+f.name,exist_ok=True)
    mine=[g for g in knowns if g.name!="convert_charstring_transformed"]
    t="-- `board::%s` meets its contract: a walk of its MIR, by hand. %s\n-- Assumes nothing.\n"%(f.name,what)+IMP8+use_syms(knowns)+"""use %(P)s%(n)s.Key.{name as #board·%(s)s}
use %(P)s%(n)s as f
use %(P)s%(n)s.Statement as stated
use %(P)s%(n)s.Code as code
use %(P)s%(n)s.Code.Mir as text
use Rattle·agreement.proofs.EntryCallees.{ConvertCharstringTransformedC, convert-charstring-transformed-as}
use %(P)sEntryCallees.{%(cs)s}
use %(SP)sAnswersLaws.{convert-finite, finished-finite, board-converts, board-finishes}
"""%dict(P=P,SP=SP,n=f.name,s=f.sym,cs=", ".join([g.C for g in mine]+[g.sym+"-as" for g in mine]))+typed("ZGX" if f is entry2 else "ZG")+frame(f)+"  module _ %s where\n"%known_binders(knowns)+walk_text(f,w.text())+closing(f,knowns)
    open(D+f.name+'/Proof.antt','w').write(t); prune(D+f.name+'/Proof.antt')
# ---- cribstork_convert
f=entry1
w=M(f,18); w.begin(None,None,None)
w.call(matrix_of,{'matrix':'matrix'},[],[4],10,lands(10,"Z","tZt"))
w.again(stems,5,11,12); w.again(commands,6,13,14); w.again(out,7,15,16)
w.call(transformed,{'charstring':'charstring','bank':'bank','stems':'stems','commands':'commands','out':'out'},[("iv","iv-fits"),("r1","mineZ r1 w1 is1")],[1,2,3,10,12,14,16],9,lands(9,"G","tGt"))
X1="(convert (xcharstring .now) (xbank .now) iv r1 (length ysstems) (length yscommands) (length ysout))"
w.again(answer,8,17)
w.call(put_glyph,{'answer':'answer'},[("r2","mineG r2 w2 is2")],[9,17],0,lands_num(0,"word","w64"),extra="(subst (λ (y : Type2Glyph). So (finite (y .width))) (sym (e2 .glyph)) (convert-finite (xcharstring .now) (xbank .now) iv r1 (length ysstems) (length yscommands) (length ysout)))")
c=w.cur; Z=" ".join(pz(c[n]['ys']) for n in ('stems','commands','out'))+' ysanswer '+pz(c['answer']['ys'])
w.leave("r3","(is3 .1)","subst (λ (y : Matrix). BoardConverts (convert (xcharstring .now) (xbank .now) iv y (length ysstems) (length yscommands) (length ysout)) ysstems yscommands (length ysout) r3 %s) e1 (board-converts %s ysstems yscommands (length ysout) r2 r3 %s e2 e3)"%(Z,X1,Z),within=None)
write(f,w,(matrix_of,transformed,put_glyph),"It lends the stores and the output to converting, and the answer's words to `put_glyph`.")
# ---- cribstork_convert_finished
f=entry2
w=M(f,24); w.begin(None,None,None)
w.call(matrix_of,{'matrix':'matrix'},[],[4],13,lands(13,"Z","tZt"))
w.call(widths_of,{},[("dw","dw-fits"),("nw","nw-fits")],[8,9],14,lands(14,"X","tXt"))
w.again(stems,5,15,16); w.again(commands,6,17,18); w.again(programM,7,19,20); w.again(out,10,21,22)
w.call(finishedF,{'charstring':'charstring','bank':'bank','stems':'stems','commands':'commands','program':'program','out':'out'},[("iv","iv-fits"),("r1","mineZ r1 w1 is1"),("r2","mineX r2 w2 is2")],[1,2,3,13,14,16,18,20,22],12,lands(12,"G","tGt"))
CV=lambda m:"(convert (xcharstring .now) (xbank .now) iv %s (length ysstems) (length yscommands) (length ysprogram))"%m
w.again(answer,11,23)
w.call(put_glyph,{'answer':'answer'},[("r3","mineG r3 w3 is3")],[12,23],0,lands_num(0,"word","w64"),extra="(subst (λ (y : Type2Glyph). So (finite (y .width))) (sym (e3 .glyph)) (finished-finite r2 (length ysout) %s (convert-finite (xcharstring .now) (xbank .now) iv r1 (length ysstems) (length yscommands) (length ysprogram))))"%CV("r1"))
c=w.cur; Z=" ".join(pz(c[n]['ys']) for n in ('stems','commands','program','out'))+' ysanswer '+pz(c['answer']['ys'])
BF=lambda m,p:"BoardFinishes (xcharstring .now) (xbank .now) iv %s %s %s ysstems yscommands ysprogram (length ysout) r4 %s"%(m,p,CV(m),Z)
w.leave("r4","(is4 .1)","subst (λ (y : Matrix). %s) e1 (subst (λ (y : Widths). %s) e2 (board-finishes (xcharstring .now) (xbank .now) iv r1 r2 %s ysstems yscommands ysprogram (length ysout) r3 r4 %s e3 e4))"%(BF("y","(widthsOf dw nw)"),BF("r1","y"),CV("r1"),Z),within=None)
write(f,w,(matrix_of,widths_of,finishedF,put_glyph),"It lends the stores, the program and the output to converting and finishing, and the answer's words to `put_glyph`.")
