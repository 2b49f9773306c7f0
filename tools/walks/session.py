# What the walks of the session calls share: the parameters, what is had of them, and the end with both clauses of the contract, by a measure.
from frame import *
PARAMS=[('shared','u8'),('given','u32'),('given','u32'),('given','T.the-row'),('given','u8')]
USES='''use Rattle·path.specs.declared.Measure.{Measure}
use Rattle·path.proofs.Measure as D
use Rattle·path.proofs.Measure.Laws as D′
use Rattle·spec_session.specs.File.{version-1}
use Rattle·spec_session.specs.Call.{Slices, session}
use Rattle·session_steps.proofs.run_steps.Lending.{lends, comes, twice}
use Rattle·session_answer.specs.declared.SessionAnswer.{SessionAnswer}
use Rattle·session_answer.proofs.SessionAnswer as R
use Rattle·session_answer.proofs.SessionAnswer.Laws as R′
use Rattle·session_call·specs.specs.Outcome.{slices, result-of, ReadsBack}
'''
MACH='''abbrev mach-r : SessionAnswer → Val
mach-r r = LL.val R.the-type R′.the-laws r

abbrev mach-m : Measure → Val
mach-m m = EL.val D.the-type D′.the-laws m

'''
LISTS='(w ws : List ℕ) (cs : List Checkpoint) (o : List ℕ)'
NOW={1:'w',2:'ws',3:'cs',4:'o'}
ENDS=['t%d'%i for i in range(5)]+['x0','f1','f2','f3','f4']
def had(f,ns):   # Slices, tokens and last lists.
    def own(i): return f.own(i,'(at-last x%s %s)'%(sub(i),NOW[i]) if i else None)
    return ' ∷ '.join({'x':own,'t':f.tok,'f':lambda i: f.fin(i,NOW[i])}[n[0]](int(n[1])) for n in ns)
def exits(f,measure):
    last=nest(['tt','w','ws','cs','o']+f.last(lambda p: 'tt')); long=nest(['tt','lw','lws','lcs','lo']+f.last(lambda p: 'tt'))
    x=Walk(f,ENDS)
    x.e('qed W (Ends w ws cs o) ∵')
    leaves,said,reads=['(%s r w ws cs o)'%n for n in ('Leaves','Said','Reads')]
    x.e(f'suffices ! _ (via 𝓤 (sep 𝓤 {leaves} (sep 𝓤 (fact 𝓤 {said}) (fact 𝓤 {reads}))) (assoc∗ 𝓤 {leaves} (fact 𝓤 {said}) (fact 𝓤 {reads}))')
    x.e(f'(ends-at {f.spec} W bound (mach-r r) r {last} {long})) $')
    x.e('says ! reads $ says ! e $')
    x.ends(f.last(lambda p: p.name)+['f4','f3','f2','f1','x0'],ANSWER,'r','r-is',{p.name: p.row.owned(p.name,p.name+'-is') for p in f.last(lambda p: p)})
    return fill('''    abbrev input : List ℕ
    input = x₀ .now

    -- What is had at the end, with these lists; and both clauses.
    abbrev Ends : @LISTS@ → List (Item 𝓤)
    Ends w ws cs o = @ENDS@ ∷ []

    abbrev Said : SessionAnswer → @LISTS@ → Type 0
    Said r w ws cs o = result-of r w ws cs o ≡ session blank version-1 @MEASURE@ input (slices (x₁ .now) (x₂ .now) (x₃ .now) (x₄ .now))

    abbrev Reads : SessionAnswer → @LISTS@ → Type 0
    Reads r w ws cs o = ReadsBack @MEASURE@ input (result-of r w ws cs o)

    abbrev Leaves : SessionAnswer → @LISTS@ → SProp 𝓤
    Leaves r w ws cs o = onExit 𝓤 H A this.ended stayed @KS@ @QS@ vals (mach-r r) r a @LAST@

    exits : (r : SessionAnswer) @LISTS@ → length w ≡ n₁ → length ws ≡ n₂ → length cs ≡ n₃ → length o ≡ n₄ → Is R.the-row r (mach-r r ∷ [])
        → Said r w ws cs o → Reads r w ws cs o → ent 𝓤 (⋆ 𝓤 H A (Ends w ws cs o)) (Post (mach-r r))
    exits r w ws cs o lw lws lcs lo r-is e reads =
@EXITS@

''',LISTS=LISTS,ENDS=had(f,ENDS),MEASURE=measure,KS=f.ks,QS=f.qs,LAST=last,EXITS=x.text(8))
