import sys; sys.path.insert(0,'$WORK/scratch/conv')
import mk6, mk5
from mk6 import *
R='$WORK/hd/crates/type1_to_type2/proofs/'
old=dict(check_entries=mk6.check_entries,none_collected=mk6.none_collected,make_plan=mk6.make_plan,end_program=mk6.end_program)
is_identity=Fn("is_identity",[mat],"bool",lambda vs,zs:"r ≡ isIdentity %s"%vs['m']['v'],result=Boo("result"),crate="folding")
count_groups=Fn("count_groups",[commands,usz("entries")],"usize",lambda vs,zs:"r ≡ groupCount %s (%s .now)"%(vs['entries']['v'],vs['commands']['x']),req=lambda vs:"14 * %s ≤ length (%s .now)"%(vs['entries']['v'],vs['commands']['x']),result=usz("result"))
none_collected=Fn("none_collected",[usz("groups")],"K.the-row",lambda vs,zs:"r ≡ noneOf %s"%vs['groups']['v'],result=COL)
make_plan=Fn("make_plan",[u64n("number"),col,mat,INTR],"Q.the-row",lambda vs,zs:"Planned %s %s %s (%s .width) r"%tuple(vs[x]['v'] for x in ('number','c','m','ri')),req=lambda vs:"Counted %s"%vs['c']['v'],result=Rec("result","Q","Plan"))
end_program=Fn("end_program",[PLAN,INTR,wri,commands,mat,idn,out],"G.the-row",lambda vs,zs:"Answers (settles (%s .number) (finiteList (foldedList %s (drawnIn (%s .entries) (%s .now)))) (writes (%s .width) (%s .ran) (resumedAll false [] %s %s []))) (length %s) r %s"%(vs['p']['v'],vs['m']['v'],vs['ri']['v'],vs['commands']['x'],vs['p']['v'],vs['ri']['v'],vs['wr']['v'],vs['out']['ys'],vs['out']['ys'],pz(zs[6])),
    req=lambda vs:"(14 * %s .entries ≤ length (%s .now)) × ((%s ≡ isIdentity %s) × ((e : ℕ) → e < %s .entries → All (OfCommand Good) (commandIn (%s .now) e)))"%(vs['ri']['v'],vs['commands']['x'],vs['identity']['v'],vs['m']['v'],vs['ri']['v'],vs['commands']['x']),result=GLY)
mk6.EDEFS=EDEFS=mk6.EDEFS.replace('Checks, noneOf, Planned, Opens, firstNumber, fromRun, Answers','groupCount, noneOf, Planned, Opens, firstNumber, fromRun, settles, Answers')+'use Rattle·folding.specs.Folding.{foldedList, finiteList}\nuse Rattle·type1.specs.Memory.{drawnIn}\n'
mk6.IMP6=IMP5.replace('use %sFolding.{isIdentity, foldedStems}'%SP,'use Rattle·folding.specs.Folding.{isIdentity, foldedStems}').replace('use %sdeclared.Checked.{Checked}\n'%SP,'').replace('use %sChecked as Y\n'%P,'').replace('use %sChecked.Laws as Y′\n'%P,'').replace(', machY','')+EDEFS
import re
mk6.IMP6=re.sub(r'use [^\n]*Checked[^\n]*\n','',mk6.IMP6)
mk6.convert_run=convert_run
def mk_convert_run_d():
    f=convert_run; N=42; w=M(f,N); w.begin(None,None,None)
    ENT=("(ri .entries)",owedf("I","ri","machI ri","ri-fits",3)+" .1"); ent=lambda s:s.fldp(1,3)
    w.call(is_identity,{},[("m","m-fits")],[3],10,lands_bool(10))
    w.again(commandsM,5,16,17)
    w.call(count_groups,{'commands':'commands'},[ENT],[17,ent],11,lands_num(11,"word","w64"),"(need .0 .words)")
    w.again(stems,4,18,19); w.again(commandsM,5,20,21)
    w.call(none_collected,{},[("r2","is2 .1")],[11],22,lands(22,"K","tKt"))
    w.again(acrossM,6,23); w.again(uprightM,7,24)
    w.call(collect_all,{'stems':'stems','commands':'commands','across':'across','upright':'upright'},[ENT,("m","m-fits"),("r1",None),("r3","mineK r3 w3 is3")],[19,21,ent,3,10,22,23,24],12,lands(12,"K","tKt"),"(need .0, (e1, few-none r2 r3 e3))")
    ta,tu,z1=w.cur['across']['ys'],w.cur['upright']['ys'],w.cur['stems']['ys']
    w.call(make_plan,{},[("number","number-fits"),("r4","mineK r4 w4 is4"),("m","m-fits"),("ri","ri-fits")],[2,12,3,1],13,lands(13,"Q","tQt"),"(e4 .1 .1 .1)")
    w.again(acrossS,6,25); w.again(uprightS,7,26); w.again(out,9,27,28)
    w.call(begin_program,{'across':'across','upright':'upright','out':'out'},[("r5","mineQ r5 w5 is5")],[13,25,26,28],14,lands(14,"R","tRt"),"(e5 .few)")
    o1=w.cur['out']['ys']
    w.again(stems,4,29,30); w.again(commandsM,5,31,32); w.again(acrossS,6,33); w.again(uprightS,7,34); w.again(maskM,8,35); w.again(out,9,36,37)
    O5=[res("Q",5,i) for i in range(5)]
    w.call(write_all,{x:x for x in ('stems','commands','across','upright','mask','out')},[ENT,("m","m-fits"),("r1",None),("(r5 .masked)",None),("(r5 .across)",O5[2]+" .1"),("(r5 .upright)",O5[3]+" .1"),("r6","mineR r6 w6 is6")],[30,32,ent,3,10,lambda s:s.fldp(13,1),lambda s:s.fldp(13,2),lambda s:s.fldp(13,3),33,34,35,14,37],15,lands(15,"R","tRt"),"(subst (Stored (ri .entries) yscommands) (sym (e4 .0)) (need .0), (e1, (e5 .few, need .1 .mask-len)))")
    o2=w.cur['out']['ys']; l2=w.cur['out']['e']
    w.again(commandsM,5,38,39); w.again(out,9,40,41)
    w.call(end_program,{'commands':'commands','out':'out'},[("r5","mineQ r5 w5 is5"),("ri","ri-fits"),("r7","mineR r7 w7 is7"),("m","m-fits"),("r1",None)],[13,1,15,39,3,10,41],0,lands(0,"G","tGt"),"(need .0 .words, (e1, need .0 .finite))")
    o3=w.cur['out']['ys']
    w.leave("r8","(mineG r8 w8 is8)","(e7 .0 ∙ e4 .0, (refl, run-answers number m ri yscommands ysstems (length ysout) r2 r3 r4 ysacross ysupright %s %s r5 r6 r7 %s %s %s r8 %s (need .1 .across-len) (need .1 .upright-len) e2 e3 (e4 .1) e5 e6 (e4 .0) (e7 .1) (%s) e8))"%(ta,tu,o1,o2,o3,z1,l2),within=None)
    leaf6(f,(is_identity,count_groups,none_collected,collect_all,make_plan,begin_program,write_all,end_program),"TZKRGIQ",walk_text(f,w.text())," (need : %s)"%f.req(f.stdvs()),"use %sRunLaws.{few-none, run-answers}\n"%P,"It lends the stores and the tables to each part in turn.")

mk_convert_run_d()
import shutil
shutil.copy(D+'convert_run/Proof.antt',R+'convert_run/Proof.antt')
# EntryCallees
s=open(R+'EntryCallees.antt').read()
def spl(o,n):
    global s
    a="use %s as %s-f\nuse %s.Symbol.{name as %s}\n"%(o.mod,o.sym,o.mod,o.key); assert s.count(a)==1,o.name
    s=s.replace(a,"use %s as %s-f\nuse %s.Symbol.{name as %s}\n"%(n.mod,n.sym,n.mod,n.key))
    c=contract(o); assert s.count(c)==1,('contract',o.name)
    s=s.replace(c,contract(n))
    l=o.as_lemma(); 
    if s.count(l)!=1:
        # cut from text
        i=s.index("\n  pub %s-as :"%o.sym); j=s.find("\n  pub ",i+5); j=len(s) if j<0 else j
        s=s[:i].rstrip("\n")+"\n"+n.as_lemma().rstrip("\n")+"\n"+s[j:]
    else: s=s.replace(l,n.as_lemma())
spl(old['check_entries'],count_groups); spl(old['none_collected'],none_collected); spl(old['make_plan'],make_plan); spl(old['end_program'],end_program)
s=re.sub(r'use [^\n]*Checked[^\n]*\n','',s).replace(', machY','')
s=s.replace('Blank, Checks, noneOf, Planned, Opens, firstNumber, fromRun, Answers, Converts}','Blank, groupCount, noneOf, Planned, Opens, firstNumber, fromRun, settles, Answers, Converts}').replace('use Rattle·folding.specs.Folding.{isIdentity}','use Rattle·folding.specs.Folding.{isIdentity, foldedList, finiteList}').replace('use Rattle·type1.specs.Memory.{Good, commandIn}','use Rattle·type1.specs.Memory.{Good, commandIn, drawnIn}')
open(R+'EntryCallees.antt','w').write(s)
