import sys; sys.path.insert(0,'$WORK/h/wt8')
import many
from gen import *
from prune import prune
D='$WORK/main/crates/board/proofs/'
def pz(x): return "(%s)"%x if " " in x and not x.startswith("(") else x
class Flt(Num):
    ty="Float"
    def __init__(s,name): s.name=name; s.row="f64"; s.w=None
    def mv(s,v): return "vfloat binary64 %s"%v
    def make(s,v,fit): return "owned ! f64 (Is f64) (float-makes 𝓤 H A W binary64) %s _ (refl, %s) $ "%(v,fit)
    def fitT(s): return "fits binary64 %s ≡ true"%s.name
    def passT(s): return "(tt, passes (fits binary64 %s) %s-fits)"%(s.name,s.name)
    def valsT(s): return "float-vals binary64"
    def tellsT(s): return "float-tells binary64"
    def fitOf(s,are): return "(%s .1)"%are
stems=Ref("stems","sl","T.the-row","Stem"); commands=Ref("commands","sl","u64","ℕ")
charstring=Ref("charstring","shr","u8","ℕ"); bank=Ref("bank","shr","u8","ℕ"); iv=Num("iv","usize","w64")
programM=Ref("program","sl","u8","ℕ"); out=Ref("out","sl","u8","ℕ")
matrix=Ref("matrix","sa","f64","Float",6); answer=Ref("answer","arr","u64","ℕ",4)
mat=Rec("m","Z","Matrix"); wid=Rec("p","X","Widths"); gly=Rec("g","G","Type2Glyph"); GLY=Rec("result","G","Type2Glyph"); RES=Num("result","u64","w64")
dw=Flt("dw"); nw=Flt("nw")
rd=Rec("rd","Y","Reading")
SRC=lambda vs:"(sourceOf (%s .now) (%s .now))"%(vs['charstring']['x'],vs['bank']['x'])
ROOMS=lambda vs,o:"(roomsOf %s %s %s)"%(vs['stems']['ys'],vs['commands']['ys'],vs[o]['ys'])
MAT=lambda vs:"(matrixOf (%s .now))"%vs['matrix']['x']
WID=lambda vs:"(widthsOf %s %s)"%(vs['dw']['v'],vs['nw']['v'])
matrix_of=Fn("matrix_of",[matrix],"Z.the-row",lambda vs,zs:"r ≡ matrixOf (%s .now)"%vs['matrix']['x'],result=Rec("result","Z","Matrix"),crate="board")
reading_of=Fn("reading_of",[iv],"Y.the-row",lambda vs,zs:"r ≡ readingOf %s"%vs['iv']['v'],result=Rec("result","Y","Reading"),crate="board")
widths_of=Fn("widths_of",[dw,nw],"X.the-row",lambda vs,zs:"r ≡ widthsOf %s %s"%(vs['dw']['v'],vs['nw']['v']),result=Rec("result","X","Widths"),crate="board")
put_glyph=Fn("put_glyph",[gly,answer],"u64",lambda vs,zs:"(r ≡ %s .number) × (%s ≡ glyphWords %s)"%(vs['g']['v'],zs[1],vs['g']['v']),req=lambda vs:"So (finite (%s .width))"%vs['g']['v'],result=RES,crate="board")
transformed=Fn("convert_charstring_transformed",[charstring,bank,rd,mat,stems,commands,out],"G.the-row",lambda vs,zs:"ConvertsFrom %s %s %s %s r %s %s %s"%(SRC(vs),vs['rd']['v'],vs['m']['v'],ROOMS(vs,'out'),pz(zs[4]),pz(zs[5]),pz(zs[6])),result=GLY,crate="type1_to_type2")
finishedF=Fn("convert_finished",[charstring,bank,rd,mat,wid,stems,commands,programM,out],"G.the-row",lambda vs,zs:"ConvertsFinished %s %s %s %s %s (length %s) r %s %s %s %s"%(SRC(vs),vs['rd']['v'],vs['m']['v'],vs['p']['v'],ROOMS(vs,'program'),vs['out']['ys'],pz(zs[5]),pz(zs[6]),pz(zs[7]),pz(zs[8])),result=GLY,crate="agreement")
entry1=Fn("cribstork_convert",[charstring,bank,iv,matrix,stems,commands,out,answer],"u64",lambda vs,zs:"BoardConverts %s (readingOf %s) %s %s r %s %s %s %s"%(SRC(vs),vs['iv']['v'],MAT(vs),ROOMS(vs,'out'),pz(zs[4]),pz(zs[5]),pz(zs[6]),pz(zs[7])),result=RES,crate="board")
entry2=Fn("cribstork_convert_finished",[charstring,bank,iv,matrix,stems,commands,programM,dw,nw,out,answer],"u64",lambda vs,zs:"BoardFinishes %s (readingOf %s) %s %s %s (length %s) r %s %s %s %s %s"%(SRC(vs),vs['iv']['v'],MAT(vs),WID(vs),ROOMS(vs,'program'),vs['out']['ys'],pz(zs[4]),pz(zs[5]),pz(zs[6]),pz(zs[9]),pz(zs[10])),result=RES,crate="board")
IMP8=IMP+"""use mir.Val.{vfloat}
use lib.Ieee.{fits}
use lib.Ieee.Scale.{finite}
use denote.Floats.{passes, float-vals, float-tells, float-makes}
use Rattle·type1.specs.Run.{readingOf}
use Rattle·type1.specs.Interpret.{sourceOf}
use Rattle·type1.proofs.Locals.{machY}
use Rattle·type1_to_type2.specs.Convert.{roomsOf, convert}
use Rattle·type1_to_type2.specs.Entry.{ConvertsFrom}
use Rattle·agreement.specs.Finished.{ConvertsFinished}
use Rattle·agreement.proofs.Locals.{machX}
use %sAnswers.{matrixOf, widthsOf, glyphWords, BoardConverts, BoardFinishes}
"""%SP
fs=(reading_of,matrix_of,widths_of,put_glyph,finishedF)
t="-- What the two functions that hold the stem store have of each callee, in the form that `Many.antt`'s `asks-all` takes. Assumes `Given`, and that the callee's entry meets its contract.\n"+IMP8
for f in fs: t+="use %s as %s-f\nuse %s.Symbol.{name as %s}\n"%(f.mod,f.sym,f.mod,f.key)
t+="\n"+HEAD+"".join(contract(f) for f in fs)+HEAD.replace(" where"," (W : Given 𝓤 H A) (C : Calls 𝓤 H) where").rstrip("\n")
for f in fs: t+=f.as_lemma()
open(D+'EntryCallees.antt','w').write(t); prune(D+'EntryCallees.antt')
open(D+'Lib.antt','w').write("pub mod EntryCallees\npub mod Words\n")
def walk_text(f,text): return """    pub walk : ent 𝓤 (onEntry 𝓤 H A f.signature %s %s a vals) (WpFn 𝓤 H C Λ code.function args Post)
    walk =
        %s
"""%(nest(["κ"+r.name for r in f.refs]),nest(["q"+r.name for r in f.refs]),text)
def write(f,w,knowns,what):
    os.makedirs(D+f.name,exist_ok=True)
    mine=[g for g in knowns if g.name!="convert_charstring_transformed"]
    t="-- `board::%s` meets its contract: a walk of its MIR, by hand. %s\n-- Assumes nothing.\n"%(f.name,what)+IMP8+use_syms(knowns)+"""use %(P)s%(n)s.Key.{name as #board·%(s)s}
use %(P)s%(n)s as f
use %(P)s%(n)s.Statement as stated
use %(P)s%(n)s.Code as code
use %(P)s%(n)s.Code.Mir as text
use Rattle·agreement.proofs.EntryCallees.{ConvertCharstringTransformedC, convert-charstring-transformed-as}
use %(P)sEntryCallees.{%(cs)s}
use %(SP)sAnswersLaws.{convert-finite, finished-finite, board-converts, board-finishes}
"""%dict(P=P,SP=SP,n=f.name,s=f.sym,cs=", ".join([g.C for g in mine]+[g.sym+"-as" for g in mine]))+typed("YZGX" if f is entry2 else "YZG")+frame(f)+"  module _ %s where\n"%known_binders(knowns)+walk_text(f,w.text())+closing(f,knowns)
    open(D+f.name+'/Proof.antt','w').write(t); prune(D+f.name+'/Proof.antt')
# ---- cribstork_convert
f=entry1
w=M(f,19); w.begin(None,None,None)
w.call(reading_of,{},[("iv","iv-fits")],[3],10,lands(10,"Y","tYt"))
w.call(matrix_of,{'matrix':'matrix'},[],[4],11,lands(11,"Z","tZt"))
w.again(stems,5,12,13); w.again(commands,6,14,15); w.again(out,7,16,17)
w.call(transformed,{'charstring':'charstring','bank':'bank','stems':'stems','commands':'commands','out':'out'},[("r1","mineY r1 w1 is1"),("r2","mineZ r2 w2 is2")],[1,2,10,11,13,15,17],9,lands(9,"G","tGt"))
S="(sourceOf (xcharstring .now) (xbank .now))"; R="(roomsOf ysstems yscommands ysout)"
w.again(answer,8,18)
w.call(put_glyph,{'answer':'answer'},[("r3","mineG r3 w3 is3")],[9,18],0,lands_num(0,"word","w64"),extra="(subst (λ (y : Type2Glyph). So (finite (y .width))) (sym (e3 .glyph)) (convert-finite %s r1 r2 %s))"%(S,R))
c=w.cur; cur=lambda *ns:" ".join(pz(c[n]['ys']) for n in ns)
BC=lambda q,m:"BoardConverts %s %s %s %s r4 %s"%(S,q,m,R,cur('stems','commands','out','answer'))
w.leave("r4","(is4 .1)","subst (λ (y : Reading). %s) e1 (subst (λ (y : Matrix). %s) e2 (board-converts %s r1 r2 %s r3 r4 %s e3 e4))"%(BC("y","(matrixOf (xmatrix .now))"),BC("r1","y"),S,R,cur('stems','commands','out','answer')),within=None)
write(f,w,(reading_of,matrix_of,transformed,put_glyph),"It lends the stores and the output to converting, and the answer's words to `put_glyph`.")
# ---- cribstork_convert_finished
f=entry2
w=M(f,25); w.begin(None,None,None)
w.call(reading_of,{},[("iv","iv-fits")],[3],13,lands(13,"Y","tYt"))
w.call(matrix_of,{'matrix':'matrix'},[],[4],14,lands(14,"Z","tZt"))
w.call(widths_of,{},[("dw","dw-fits"),("nw","nw-fits")],[8,9],15,lands(15,"X","tXt"))
w.again(stems,5,16,17); w.again(commands,6,18,19); w.again(programM,7,20,21); w.again(out,10,22,23)
w.call(finishedF,{'charstring':'charstring','bank':'bank','stems':'stems','commands':'commands','program':'program','out':'out'},[("r1","mineY r1 w1 is1"),("r2","mineZ r2 w2 is2"),("r3","mineX r3 w3 is3")],[1,2,13,14,15,17,19,21,23],12,lands(12,"G","tGt"))
R="(roomsOf ysstems yscommands ysprogram)"
w.again(answer,11,24)
w.call(put_glyph,{'answer':'answer'},[("r4","mineG r4 w4 is4")],[12,24],0,lands_num(0,"word","w64"),extra="(subst (λ (y : Type2Glyph). So (finite (y .width))) (sym (e4 .glyph)) (finished-finite r3 (length ysout) (convert %s r1 r2 %s) (convert-finite %s r1 r2 %s)))"%(S,R,S,R))
c=w.cur
Z=('stems','commands','program','out','answer')
BF=lambda q,m,p:"BoardFinishes %s %s %s %s %s (length ysout) r5 %s"%(S,q,m,p,R,cur(*Z))
w.leave("r5","(is5 .1)","subst (λ (y : Reading). %s) e1 (subst (λ (y : Matrix). %s) e2 (subst (λ (y : Widths). %s) e3 (board-finishes %s r1 r2 %s r4 r5 %s r3 (length ysout) %s e4 e5)))"%(BF("y","(matrixOf (xmatrix .now))","(widthsOf dw nw)"),BF("r1","y","(widthsOf dw nw)"),BF("r1","r2","y"),S,R,cur('stems'),cur('commands','program','out','answer')),within=None)
write(f,w,(reading_of,matrix_of,widths_of,finishedF,put_glyph),"It lends the stores, the program and the output to converting and finishing, and the answer's words to `put_glyph`.")
