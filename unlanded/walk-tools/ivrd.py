import re,sys
def walk(s, crate='type1', sourced=True):
    """a parameter iv: usize of a walk becomes rd: Reading"""
    s=s.replace("vint w64 iv","machY rd")
    s=s.replace("owned ! usize (Is usize) (uint-makes 𝓤 H A W w64) iv _ (refl, iv-fits)","owned ! Y.the-row (Is Y.the-row) (LL.makes Y.the-type Y′.the-plain 𝓤 H A) rd _ rd-fits")
    s=s.replace("iv < 2 ^ 64","Is Y.the-row rd (machY rd ∷ [])")
    s=s.replace("(iv : ℕ)","(rd : Reading)")
    s=s.replace("(tt, record { fits = iv-fits })","(typedY 𝓤 H A W rd _ rd-fits)")
    s=re.sub(r"fat fullShare word (l[₀-₉]+) 0 \(machY rd\)\) ∷ ‵ \(fdies word \1\)",r"fat fullShare tYt \1 0 (machY rd)) ∷ ‵ (fdies tYt \1)",s)
    s=re.sub(r"filled word (l[₀-₉]+) \(machY rd\)",r"filled tYt \1 (machY rd)",s)
    s=s.replace("iv-fits","rd-fits"); s=re.sub(r"\biv\b","rd",s)
    s=s.replace("(xcharstring .now) (xbank .now) rd","(sourceOf (xcharstring .now) (xbank .now)) rd")
    return s
def rows(s):
    s=s.replace("(stay-none (λ _. usize) yes","(stay-none (λ _. Y.the-row) yes",1)
    s=re.sub(r"u8 ∷ usize ∷ ",r"u8 ∷ Y.the-row ∷ ",s)
    s=re.sub(r"(\(goes-none 𝓤 H A W \d+ \(λ _\. )usize\)",r"\1Y.the-row)",s,count=1)
    s=s.replace("(uint-vals w64,","(LL.vals Y.the-type Y′.the-laws,",1).replace("(uint-tells w64,","(LL.tells Y.the-type Y′.the-laws,",1)
    s=s.replace("(RefT (List ℕ) × (RefT (List ℕ) × (ℕ × (","(RefT (List ℕ) × (RefT (List ℕ) × (Reading × (")
    s=s.replace("(are .1 .1 .0 .1)","(are .1 .1 .0)")
    return s
def imports(s, after, locals_crate="Rattle·type1.proofs.Locals", own=False):
    pre="Rattle·type1·specs.specs" if own else "Rattle·type1.specs"
    pro="Rattle·type1·proofs.proofs" if own else "Rattle·type1.proofs"
    imp=[]
    if re.search(r"\bReading\)",s) or "Reading ×" in s: imp.append("use %s.declared.Reading.{Reading}"%pre)
    if "Y.the-" in s: imp.append("use %s.Reading as Y"%pro)
    if "Y′.the-" in s: imp.append("use %s.Reading.Laws as Y′"%pro)
    assert after in s, after
    s=s.replace(after,after+"".join(i+"\n" for i in imp if i not in s),1)
    if "machY" in s:
        m=re.search(r"use Rattle·type1(?:·proofs\.proofs|\.proofs)\.Locals\.\{([^}]*)\}",s)
        if m and "machY" not in m.group(0): s=s.replace(m.group(0),m.group(0)[:-1]+", machY}")
        elif not m: s=s.replace(after,after+"use %s.{machY}\n"%locals_crate,1)
    if "sourceOf" in s:
        m=re.search(r"use Rattle·type1(?:·specs\.specs|\.specs)\.Interpret\.\{([^}]*)\}",s)
        if m:
            if "sourceOf" not in m.group(0): s=s.replace(m.group(0),m.group(0).replace(".{",".{sourceOf, "))
        else: s=s.replace(after,after+"use %s.Interpret.{sourceOf}\n"%pre,1)
    if "typedY 𝓤" in s and "typedY :" not in s:
        d='''abbrev tYt : Ty
tYt = spell text.table (pointee (Y.the-row .written))

typedY : {M : Type 1} (𝓤 : URA M) (H : Heap 𝓤) (A : Atoms 𝓤) (W : Given 𝓤 H A) (h : Reading) (u : Val) → Is Y.the-row h (u ∷ []) → So (hasTy tYt u) × WT u
typedY 𝓤 H A W h u i = LL.lawful Y.the-type Y′.the-laws 𝓤 H A W .typed h (u ∷ []) i .0

'''
        i=s.index("abbrev t"); j=s.rindex("\n\n",0,i)+2
        s=s[:j]+d+s[j:]
    return s
