import re
g=open('gen.py').read()
g=g.replace("lit<, eqb}","lit<, eqb, eqb→eq}").replace("_+_, _-_, _<_","_+_, _*_, _-_, _<_")
open('gen.py','w').write(g)
m=open('many.py').read()
m=m.replace('"(t : ℕ) → Below%s 𝓤 H A mem run′ C t"%s.name.capitalize()','"(t : ℕ) → Below%s 𝓤 H A mem run′ C t"%s.C[:-1]')
open('many.py','w').write(m)
s=open('mk_cycle.py').read()
def r(a,b,n=1):
    global s
    assert s.count(a)==n,(s.count(a),a); s=s.replace(a,b)
s=s.replace("+op+run.","+call_body+op+run.").replace("/+op+run/","/+call_body+op+run/").replace("s+op+run as cycle","s+call_body+op+run as cycle")
r('req=REQ,member="({0} + {0})")','req=REQ,member="({0} + {0} + {0} + 1)")')
r('req=REQ,member="({0} + {0} + 1)")','req=REQ,member="({0} + {0} + {0} + 2)")')
r('token=Fn("token"','''call_body=Fn("call_body",[bank,iv,levels,st]+LENT,"N.the-row",lambda vs,zs:"Meets r %s (opD (%s .now) %s %s 10 %s %s)"%(memt(zs[4:11]),vs['bank']['x'],vs['iv']['v'],vs['levels']['v'],vs['st']['v'],m0(vs)),req=REQ,member="({0} + {0} + {0})")
MEMBERS=(call_body,op,run)
def LEV(f,y="y"): return "(%s)"%proj(y+" .0 .3",[p.name for p in f.params].index("levels"))
token=Fn("token"''')
r('LEV="(y .0 .3 .1 .1 .1 .0)"\n','')
r('for f in (op,run): t+="use','for f in MEMBERS: t+="use')
r('for f in CALLEES+(op,run): t+=contract(f)','for f in CALLEES+MEMBERS: t+=contract(f)')
r('for f in (op,run): t+="  abbrev pub Below','for f in MEMBERS: t+="  abbrev pub Below')
r('%(f.name.capitalize(),f.name.capitalize(),f.C,f.member.format(LEV),','%(f.C[:-1],f.C[:-1],f.C,f.member.format(LEV(f)),')
r('for f in CALLEES+(op,run): t+=f.as_lemma()','for f in CALLEES+MEMBERS: t+=f.as_lemma()')
r('LEMMAS if f is op','LEMMAS if f is call_body')
# op's walk
i=s.index('LOCO=['); j=s.index('# ---- run\n')
s=s[:i]+r'''PARS=["sliceTy (tB (named 0))","word","word","tSt","tF (named 1) 256","tF (named 2) 256","tF (named 3) 19","tF (named 4) 1024","tA (named 5)","sliceTy (tU (named 6))","sliceTy (tS (named 7))"]
LENTS=["tF erased 256","tF erased 256","tF erased 19","tF erased 1024","tA erased","tU erased","sliceTy (tU erased)"]
STEMS=["tS erased","sliceTy (tS erased)"]
LOCC=["tNt"]+PARS+["tDt","byte","sF erased 256","tyBool","sliceTy (tB erased)","word"]+LENTS+STEMS
LOCO=["tNt","half"]+PARS+["word","tNt","tSt","word","word","tyBool"]+LENTS+STEMS+STEMS+LENTS+["tyUnit","sF erased 1024","sA erased"]+STEMS
FIT="need .1 .1 .fit"
def lend_all(w,src,tmp):
    """the seven arrays lent again, from the parameters at src on to the locals at tmp on"""
    for i,x in enumerate(LENT[:5]): w.again(x,src+i,tmp+i)
    w.again(cmds,src+5,tmp+5,tmp+6)
    return w
def binders(gs,other,vs,mu): return "  module _ %s (need : %s) (t : ℕ) (below : %s 𝓤 H A mem run′ C t) (measure : %s ≡ t) where\n"%(known_binders(gs),REQ(vs),other,mu)
def call_body_file():
    f=call_body; N=len(LOCC); vs=f.stdvs(); M0=m0(vs)
    y=M(f,N); y.begin(None,None,"call-body"); y.open("knows-bytes ! tt xbank (λ octets. ")
    y.again(opsS,5,14)
    y.call(callsubr,{'bank':'bank','ops':'ops'},[("st","st-fits")],[1,4,14],12,lands(12,"D","tDt"),"(need .1 .0, (%s .bounds .operands, %s .bounds .ran))"%(FIT,FIT))
    OW=[res("D",1,i) for i in range(3)]
    y.set(13,"(of-opd ! %s)"%y.fldp(12,1),"(tt, record { fits = %s .1 })"%OW[1])
    y.set(15,"(bin ! %s (lit ! tt) tt)"%y.ld(13),"(tt, tt)")
    y.emit("\n        guards ! %s\n        "%y.ld(15))
    CALL="(xbank .now) iv levels 10 st %s r1 (e1 %s (abs st %s) iv (record { is = refl; fit = %s })) tt"%(M0,M0,M0,FIT)
    d=y.copy(); d.open("(λ off. ")
    d.call(made,{},[("(r1 .st)",OW[0]),("(r1 .flow)",OW[1]+" .1")],[lambda s:s.fldp(12,0),13],0,lands(0,"N","tNt"))
    d.leave("r2","(mineN r2 w2 is2)","call-refused %s r2 e2 off"%CALL)
    z=y.copy(); z.open("(λ on. ")
    z.set(15,"(bin ! %s (lit ! tt) tt)"%z.ld(3),"(tt, tt)")
    z.emit("\n        guards ! %s\n        "%z.ld(15))
    q=z.copy(); q.open("(λ deep. ")
    q.call(made,{},[("(r1 .st)",OW[0]),("4","lit< tt")],[lambda s:s.fldp(12,0),lambda s:"(lit ! tt)"],0,lands(0,"N","tNt"))
    q.leave("r2","(mineN r2 w2 is2)","too-deep %s on r2 e2 deep"%CALL)
    c=z.copy(); c.open("(λ room. ")
    def pl(k): return ("(fat-typed r%d w%d (is%d .0 .0) (is%d .0 .1))"%(k,k,k,k), lambda s: (s.rewrite(16,"(sliceTy (tB erased))","u : Val","u","ap only (is%d .0 .0)"%k), s.emit("rewrite ! %d (λ (u : Val). ‵ (ShrSlice (named 0) κbank u8 .own r%d (u ∷ []))) (ap only (is%d .0 .0)) refl $ "%(s.p("res"),k,k))))
    c.call(body,{'bank':'bank'},[("(r1 .index)",OW[2]+" .1")],[1,lambda s:s.fldp(12,2)],16,pl,keep="part")
    c.extra={'part':Ref("part","shr","u8","ℕ")}; c.owner={'part':'bank'}; c.cur['part']=dict(κ='κbank',q='qbank',x='r2')
    c.set(17,"(bin ! %s (lit ! tt) (positive levels room))"%c.ld(3),"(tt, record { fits = less-fits levels levels-fits })")
    lend_all(c,5,18); c.again(stems,11,25,26)
    src={x:x for x in ('bank',)+SEVEN}; src['code']='part'
    c.call(run,src,[("iv","iv-fits"),("(levels - 1)","less-fits levels levels-fits"),("(r1 .st)",OW[0])],[16,1,2,17,lambda s:s.fldp(12,0),18,19,20,21,22,24,26],0,lands(0,"N","tNt"),"(fewer levels (need .0), (need .1 .0, ready-call %s on octets (need .1 .1))) (omega (arith, measure, positive levels room))"%CALL)
    c.leave("r3","(mineN r3 w3 is3)","called %s on (r2 .now) e2 room r3 %s e3"%(CALL,memt([c.cur[x]['ys'] for x in SEVEN])),within=None)
    walk="".join(y.out)+d.text()+"\n        "+"".join(z.out)+q.text()+"\n        "+c.text()+")"*z.paren+")"*y.paren
    gs=(callsubr,made,body)
    return head(f,"-- `type1::call_body`'s walk: its MIR at one choice of what its triple binds, from the contract of `run` below the measure. Assumes `Given`.\n",gs,["BelowRun","run-as"],"call-refused, too-deep, ready-call, called","SND").replace("use %sMemory.{Mem,"%SP,"use %sMemory.{abs, Mem,"%SP)+binders(gs,"BelowRun",vs,"levels + levels + levels")+"    pub walk : ent 𝓤 (onEntry 𝓤 H A f.signature %s %s a vals) (WpFn 𝓤 H C Λ code.call-body-function args Post)\n    walk =\n        %s\n"%(nest(["κ"+r.name for r in f.refs]),nest(["q"+r.name for r in f.refs]),walk), gs
def op_file():
    f=op; N=len(LOCO); vs=f.stdvs(); M0=m0(vs)
    w=M(f,N); w.begin(None,None,"op")
    w.set(18,"(bin ! %s (lit ! tt) tt)"%w.ld(1),"(tt, tt)")
    w.emit("\n        guards ! %s\n        "%w.ld(18))
    c=w.copy(); c.open("(λ is-call. ")
    lend_all(c,6,19); c.again(stems,12,26,27)
    c.call(call_body,{x:x for x in ('bank',)+SEVEN},[("iv","iv-fits"),("levels","levels-fits"),("st","st-fits")],[2,3,4,5,19,20,21,22,23,25,27],0,lands(0,"N","tNt"),"need (omega (arith, measure))")
    c.leave("r1","(mineN r1 w1 is1)","subst (λ (k : ℕ). Meets r1 %s (opD (xbank .now) iv levels k st %s)) (sym (eqb→eq o 10 is-call)) e1"%(memt([c.cur[x]['ys'] for x in SEVEN]),M0))
    ls,EN,en=env(LOCO)
    v=w.copy(); v.open("(λ not-call. "); v.emit("forget ! %d refl $ keep ! %s $ others not-call %s"%(v.p("_18"),lst(v.p(x) for x in v.canon()),ls))
    live={i+1:x for i,x in enumerate(f.vals(vs))}
    at=" ∷ ".join("‵ (%s) ∷ ‵ (flft κ%s q%s)"%(r.own(vs[r.name]),r.name,r.name) for r in f.refs)+" ∷ "+" ∷ ".join(("‵ (fat fullShare %s l%s 0 (%s))"%(par(LOCO[i]),sub(i),live[i]) if i in live else "‵ (froom %s l%s 0)"%(par(LOCO[i]),sub(i)))+" ∷ ‵ (fdies %s l%s)"%(par(LOCO[i]),sub(i)) for i in reversed(range(N)))+" ∷ []"
    n=M(f,N); n.live=set(live); n.ctx=n.canon()
    n.again(stems,12,28,29)
    n.call(room,{'stems':'stems'},[],[29],13,lands_num(13,"word","w64"))
    lend_all(n,6,30)
    n.call(plain,{x:x for x in SEVEN[:6]},[("o","o-fits"),("r1","is1 .1"),("st","st-fits")],[1,13,5,30,31,32,33,34,36],14,lands(14,"N","tNt"),"(%s .bounds) (subst (λ (k : ℕ). st .stems ≤ k) (sym (e1 .0)) (%s .stems)) (finite-of st %s (need .1 .1))"%(FIT,FIT,M0))
    O2=[res("N",2,i) for i in range(2)]
    n.set(15,"(of-opd ! %s)"%n.fldp(14,0),"(typedS 𝓤 H A W (r2 .st) _ (%s))"%O2[0])
    n.set(16,"(of-opd ! %s)"%n.fldp(15,7),"(tt, record { fits = %s .1 })"%owedf("S","(r2 .st)","machS (r2 .st)","(%s)"%O2[0],7))
    ST=lambda k: owedf("S","st","machS st","st-fits",k)
    n.set(17,"(of-opd ! %s)"%n.fldp(5,7),"(tt, record { fits = %s .1 })"%ST(7))
    n.set(18,"(bin ! %s %s tt)"%(n.ld(16),n.ld(17)),"(tt, tt)")
    n.emit("\n        guards ! %s\n        "%n.ld(18))
    cur=n.cur; six=[cur[x]['ys'] for x in SEVEN[:6]]; E,A_=cur['edges']['ys'],cur['across']['ys']
    PLN="(plained (xbank .now) iv levels o st %s not-call r1 (e1 .0) r2 %s (e2 .0 %s (abs st %s) (sym (e1 .0)) (record { is = refl; fit = %s })))"%(M0,memt(six+["(kept st (r2 .st) %s %s ysstems)"%(E,A_)]),M0,M0,FIT)
    SUB="subst (λ (z : List Stem). Meets r2 %s (opD (xbank .now) iv levels o st %s)) (%%s) %s"%(memt(six+["z"]),M0,PLN)
    g=n.copy(); g.open("(λ new. "); g.again(edgesS,9,38); g.again(acrossS,10,39); g.again(stems,12,40,41)
    g.call(keep_group,{'edges':'edges','across':'across','stems':'stems'},[("(st .stems)",ST(8)+" .1"),("(st .hints)",ST(5)+" .1")],[lambda s:s.fldp(5,8),lambda s:s.fldp(5,5),38,39,41],37,lands_unit(37),"(%s .bounds .hints, subst (λ (k : ℕ). st .stems + st .hints ≤ k) (e1 .0 ∙ ap length (sym (e1 .1))) (e2 .1 (new-group st (r2 .st) new)))"%FIT)
    g.set(0,"(of-opd ! %s)"%g.ld(14),"(typedN 𝓤 H A W r2 _ (mineN r2 w2 is2))")
    g.leave("r2","(mineN r2 w2 is2)",SUB%("kept-new st (r2 .st) %s %s ysstems new ∙ sym (e3 ∙ ap (λ (l : List Stem). paste l (st .stems) (stemsAt 0 (st .hints) %s %s) (st .hints)) (e1 .1))"%(E,A_,E,A_)))
    h=n.copy(); h.open("(λ same. ")
    h.set(0,"(of-opd ! %s)"%h.ld(14),"(typedN 𝓤 H A W r2 _ (mineN r2 w2 is2))")
    h.leave("r2","(mineN r2 w2 is2)",SUB%("kept-same st (r2 .st) %s %s ysstems same ∙ sym (e1 .1)"%(E,A_)),within=None)
    walk="".join(w.out)+c.text()+"\n        "+v.text()+")"*w.paren
    others=en+"""    abbrev At : (%(ls)s : ℕ) → List (Item 𝓤)
    At %(ls)s = %(at)s

    -- every operator but callsubr
    others : So (not (eqb o 10)) → (%(ls)s : ℕ) → Sq W (At %(ls)s) (runs C Λ %(EN)s text.t-3 (atRet %(EN)s Post))
    others not-call %(ls)s =
        %(n)s

"""%dict(ls=ls,EN=EN,at=at,n="".join(n.out)+g.text()+"\n        "+h.text()+")"*n.paren)
    gs=(room,plain,keep_group)
    return head(op,"-- `type1::op`'s walk: its MIR at one choice of what its triple binds, from the contract of `call_body` below the measure. Assumes `Given`.\n",gs,["BelowCallBody","call-body-as"],"finite-of, kept-same, kept-new, new-group, plained","SN").replace("use %sMemory.{Mem,"%SP,"use %sMemory.{abs, Mem,"%SP)+binders(gs,"BelowCallBody",vs,"levels + levels + levels + 1")+others+"    pub walk : ent 𝓤 (onEntry 𝓤 H A f.signature %s %s a vals) (WpFn 𝓤 H C Λ code.op-function args Post)\n    walk =\n        %s\n"%(nest(["κ"+r.name for r in f.refs]),nest(["q"+r.name for r in f.refs]),walk), gs
'''+s[j:]
r('"  module _ %s (need : %s) (t : ℕ) (below : BelowOp 𝓤 H A mem run′ C t) (measure : levels + levels + 1 ≡ t) where\\n"%(known_binders(gs),REQ(vs))','binders(gs,"BelowOp",vs,"levels + levels + levels + 2")')
r("ot,ogs=op_file(); rt_,rgs=run_file()\n","ct,cgs=call_body_file(); ot,ogs=op_file(); rt_,rgs=run_file()\nopen(D+'Proof/CallBody.antt','w').write(ct); ")
# the cycle
i=s.index('def method('); j=s.index('allg=[]')
me=s[i:j]
me=me.replace('c="%s.clauses 𝓤 H A (𝓜 .mem) (𝓡 .run)"%f.name; W="(WpFn 𝓤 H (𝓣 .C) (𝓣 .Λ) code.%s-function)"%f.name','c="%s.clauses 𝓤 H A (𝓜 .mem) (𝓡 .run)"%f.sym; W="(WpFn 𝓤 H (𝓣 .C) (𝓣 .Λ) code.%s-function)"%f.sym')
me=me.replace('dict(n=f.name,o=other.name','dict(n=f.sym,o=other.sym').replace('f.member.format(LEV)[1:-1]','f.member.format(LEV(f))[1:-1]').replace('other.member.format(LEV.replace("y ","y′ "))[1:-1]','other.member.format(LEV(other,"y′"))[1:-1]')
s=s[:i]+me+s[j:]
r("for g in ogs+rgs:","for g in cgs+ogs+rgs:")
r("mod Calls\nmod Run\nmod Op\n-- The proof of the cycle of calls {op, run}, by hand. The measure is twice levels, and one more for `run`.","mod Calls\nmod Run\nmod Op\nmod CallBody\n-- The proof of the cycle of calls {call_body, op, run}, by hand. The measure is three times levels, one more for `op`, two more for `run`.")
r('for g in (op,run): pr+="use %s as %s\\nuse %s.Key.{name as %s}\\n"%(g.mod,g.name,','for g in MEMBERS: pr+="use %s as %s\\nuse %s.Key.{name as %s}\\n"%(g.mod,g.sym,')
r("Proof.Op as in-op\n","Proof.Op as in-op\nuse %(P)s+call_body+op+run.Proof.CallBody as in-call-body\n")
r("for g in (op,run):\n","for g in MEMBERS:\n")
r("dict(n=g.name,mu=g.member.format(LEV)[1:-1])","dict(n=g.sym,mu=g.member.format(LEV(g))[1:-1])")
r("pr+=method(op,run,ogs)+method(run,op,rgs)","pr+=method(call_body,run,cgs)+method(op,call_body,ogs)+method(run,op,rgs)")
i=s.index("pub +op+run-spec"); j=s.index("open(D+'Proof.antt'")
s=s[:i]+"""pub +call-body+op+run-spec : {M : Type 1} → statement M
unfolding code.call-body-routine code.op-routine code.run-routine tablesOf
+call-body+op+run-spec 𝓤 H 𝓜 𝓖 𝓡 =
    mutual-elim 𝓤 H (𝓖 .A) (cycle.functions 𝓤 H (𝓖 .A) (𝓜 .mem) (𝓡 .run)) _<_ (Nat·lt-wfRel .wf) (call-body-graded 𝓤 H 𝓜 𝓖 𝓡, (op-graded 𝓤 H 𝓜 𝓖 𝓡, run-graded 𝓤 H 𝓜 𝓖 𝓡))
    (λ t below. call-body-method 𝓤 H 𝓜 𝓖 𝓡 t (below .1 .1))
    (λ t below. op-method 𝓤 H 𝓜 𝓖 𝓡 t (below .0))
    (λ t below. run-method 𝓤 H 𝓜 𝓖 𝓡 t (below .1 .0))
'''
"""+s[j:]
r("'Proof/Op','Proof/Run')","'Proof/Op','Proof/Run','Proof/CallBody')")
open('mk_cycle_h6.py','w').write(s)
