# Writes the proof of round_trip::round_trip to the file that it is given.
import sys
from frame import *
READ=struct('ReadAnswer','Q'); TRIP=struct('RoundTrip','RT')
SESSION=Callee('Session','call','Rattle·session_call.proofs.nikvoldra_session')
READING=Callee('Reading','reads','Rattle·round_trip·proofs.proofs.read_finished.read_first')
f=Frame('round_trip.py','Rattle·round_trip·proofs.proofs.round_trip',
    [('shared','u8'),('given','u32'),('given','u32'),('given','T.the-row'),('lent','u8'),('given','u32'),('given','u32'),('given','u8')],[SESSION,READING])
HEAD='''-- `round_trip::round_trip` meets its contract: a walk of its MIR. It knows of `nikvoldra_session` and `read_first` that each meets its contract.
-- `work` and `output` are lent again to the session call (`Again`); `output` is then lent as a `&[u8]` to the reading (`Shared`), and the other slices go
-- to the calls for good. That the values keep the promise is `Returned`.
-- Assumes nothing.
'''
USES='''use Rattle·path.specs.Measure.{counted}
use Rattle·spec_reading.specs.Call.{reading}
use Rattle·read_answer.specs.declared.ReadAnswer.{ReadAnswer}
use Rattle·read_answer.specs.Answer.{slices as store-slices}
use Rattle·read_answer.proofs.ReadAnswer as Q
use Rattle·read_answer.proofs.ReadAnswer.Laws as Q′
use Rattle·read_call.specs.Outcome.{read-result-of}
use Rattle·session_answer.specs.declared.SessionAnswer.{SessionAnswer}
use Rattle·session_answer.proofs.SessionAnswer as R
use Rattle·session_answer.proofs.SessionAnswer.Laws as R′
use Rattle·session_call.specs.Outcome.{result-of, ReadsBack}
use Rattle·session_call.proofs.Lending.{lends, comes, twice}
use Rattle·round_trip·specs.specs.declared.RoundTrip.{RoundTrip}
use Rattle·round_trip·specs.specs.RoundTrip.{Lists, lists, the-session}
use Rattle·round_trip·proofs.proofs.Returned.{trip}
use Rattle·round_trip·proofs.proofs.Shared.{Kept, shares-at, returns-at}
use Rattle·round_trip·proofs.proofs.RoundTrip as RT
use Rattle·round_trip·proofs.proofs.RoundTrip.Laws as RT′
'''
MACH='''-- Both answers, and the machine values.
abbrev both : SessionAnswer → ReadAnswer → RoundTrip
both s r = record { session = s; read = r }

abbrev mach : RoundTrip → Val
mach d = LL.val RT.the-type RT′.the-laws d

abbrev mach-s : SessionAnswer → Val
mach-s s = LL.val R.the-type R′.the-laws s

both-are : (s : SessionAnswer) (u : Val) → Is R.the-row s (u ∷ []) → (r : ReadAnswer) (y : Val) → Is Q.the-row r (y ∷ []) → Is RT.the-row (both s r) (mach (both s r) ∷ [])
both-are s u s-is r y r-is = LL.owes RT.the-type RT′.the-laws (both s r) (@S@, (@R@, tt))

'''
MACH=fill(MACH,S=ANSWER.spelled('s','s-is'),R=READ.spelled('r','r-is'))
last={1:'w₁',2:'w₂',3:'cs',5:'ps',6:'ns',7:'bs'}
ENDS=['x0']+['t%d'%i for i in range(8)]+['f1','f2','f3','x4','f5','f6','f7']
def item(n): i=int(n[1]); return f.tok(i) if n[0]=='t' else f.fin(i,last[i]) if n[0]=='f' else f.own(i,'(at-last x₄ o)' if i else None)
OPEN='''    -- The lists that are lent, and what the two contracts say of the values.
    abbrev before : Lists
    before = lists (x₁ .now) (x₂ .now) (x₃ .now) (x₄ .now) (x₅ .now) (x₆ .now) (x₇ .now)

    abbrev Ran : SessionAnswer → (w w₂ : List ℕ) (cs : List Checkpoint) (o : List ℕ) → Type 0
    Ran s w w₂ cs o = result-of s w w₂ cs o ≡ the-session (x₀ .now) before

    abbrev Back : SessionAnswer → (w w₂ : List ℕ) (cs : List Checkpoint) (o : List ℕ) → Type 0
    Back s w w₂ cs o = ReadsBack counted (x₀ .now) (result-of s w w₂ cs o)

    abbrev WasRead : SessionAnswer → (w o : List ℕ) → ReadAnswer → (w₁ ps ns bs : List ℕ) → Type 0
    WasRead s w o r w₁ ps ns bs = read-result-of r w₁ ps ns bs ≡ reading (take (s .size) o) (store-slices w (x₅ .now) (x₆ .now) (x₇ .now))

    abbrev Ends : (w₁ w₂ : List ℕ) (cs : List Checkpoint) (o ps ns bs : List ℕ) → List (Item 𝓤)
    Ends w₁ w₂ cs o ps ns bs = @ENDS@

    exits : (s : SessionAnswer) (w w₂ : List ℕ) (cs : List Checkpoint) (o : List ℕ) → length w ≡ n₁ → length w₂ ≡ n₂ → length cs ≡ n₃ → length o ≡ n₄
        → Ran s w w₂ cs o → Back s w w₂ cs o
        → (r : ReadAnswer) (w₁ ps ns bs : List ℕ) → length w₁ ≡ length w → length ps ≡ n₅ → length ns ≡ n₆ → length bs ≡ n₇ → WasRead s w o r w₁ ps ns bs
        → Is RT.the-row (both s r) (mach (both s r) ∷ []) → ent 𝓤 (⋆ 𝓤 H A (Ends w₁ w₂ cs o ps ns bs)) (Post (mach (both s r)))
    exits s w w₂ cs o e₁ e₂ e₃ e₄ ran back r w₁ ps ns bs d₁ e₅ e₆ e₇ was-read is =
@EXITS@

    -- The session call: work and output, lent again, and the other slices.
@SESSION@
    -- The reading: output, lent as a `&[u8]`, the session's answer, work and the other slices.
@READING@
'''
x=Walk(f,ENDS)
x.e('qed W (Ends w₁ w₂ cs o ps ns bs) ∵')
lists,long=nest('tt w₁ w₂ cs o ps ns bs'.split()),nest(['tt','d₁ ∙ e₁']+['e'+sub(i) for i in range(2,8)])
x.e(f'suffices ! _ (ends-at {f.spec} W bound (mach (both s r)) (both s r) {lists} {long}) $')
x.e('says ! (trip (x₀ .now) before (lists w₁ w₂ cs o ps ns bs) w s r ran was-read back e₁) $')
x.ends(['f7','f6','f5','x4','f3','f2','f1','x0'],TRIP,'both s r','is')
session=Call(f,SESSION,[Slice(0),Slice(1,'(again₁ δ₁ (x₁ .now))',True),
    Slice(2),Slice(3),Slice(4,'(again₄ δ₄ (x₄ .now))',True)],'(ν₁ ν₄ : ℕ) (δ₁ δ₄ : GName)')
SEEN='‵ (ShrSlice (named 0) (ν ∷ []) u8 .own (again₄ δ %s) (v₄ ∷ []))'
reads=Call(f,READING,[Slice(4,'(again₄ δ o)',True,SEEN%'o',True),Plain(ANSWER,'s','mach-s s','s-is'),Slice(1,'(at-last x₁ w)'),Slice(5),Slice(6),Slice(7)],
    '(o w : List ℕ) (s : SessionAnswer) (ν : ℕ) (δ : GName)',None,'(s-is : Is R.the-row s (mach-s s ∷ []))','ls')
OPEN=fill(OPEN,ENDS=items(map(item,ENDS)),EXITS=x.text(8),SESSION=session.text(4),READING=reads.text(4))

# ---- The walk. The session leaves work W, the words and records, and the output O; the reading leaves LS.
W,O='(zs .1 .0)','(zs .1 .1 .1 .1 .0)'
LEFT=W+' (zs .1 .1 .0) (zs .1 .1 .1 .0) '+O
LS='(ls .1 .1 .0) (ls .1 .1 .1 .0) (ls .1 .1 .1 .1 .0) (ls .1 .1 .1 .1 .1 .0)'
w=Walk(f,['toks','owns'])
w.enter(29)
w.comment('The slices as the session call takes them; work and output are lent again for lifetimes of the call.')
for i in (1,2,3,4): w.slice_again(i+1,9+2*i,i)
for i in (1,4): w.lend(i,'(x%s .now)'%sub(i),'refl')
w.copy(0)
w.call(session,[1,12,14,16,18])
w.answer(session,ANSWER,'s','u',9,[('Ran s '+LEFT,'ran'),('Back s '+LEFT,'back')])
w.comment('The lifetimes are ended, and work and output come back.')
for i,zs in ((1,W),(4,O)): w.back(i,'(x%s .now)'%sub(i),'refl',zs,'e'+sub(i))
w.comment('The slices as the reading takes them; output is lent as a `&[u8]`.')
for k,i in enumerate((4,1,5,6,7)): w.slice_again(i+1,19+2*k,i)
w.e('lft-new ! tt (λ ν.'); w.ctx=['n4']+w.ctx; w.move('x4','t4')
SHARED='u8 κ₄ (ν ∷ []) q₄ 𝓤 H A W (named 4) (named 0) x₄ '+O
w.e('use2 W (later (some (λ (δ : GName). %s ⊛ ‵ (Kept %s)))) (shares-at %s n₄ e₄) $ await ! tt $ pick ! (λ δ. split ! $'%(SEEN%O,SHARED,SHARED)); w.head(2,'x4','kept')
reads=reads.applied(O,W,'s','ν','δ')
w.call(reads,[20,9,22,24,26,28],ANSWER.spelled('s','s-is'))
w.answer(reads,READ,'r','y',10,[('WasRead s %s %s r %s'%(W,O,LS),'was-read')],eqs={1:'d₁'})
w.dies('n4'); w.move('dead','kept')
w.e('use2 W (later (%s ⊛ %s)) (returns-at %s n₄ e₄ room₄) $ await ! tt $ split ! $'%(f.own(4,'(at-last x₄ %s)'%O),f.tok(4),SHARED)); w.head(2,'x4','t4')
w.comment('Both answers.')
w.assign('agg ! '+w.ops([w.ld(9),w.ld(10)]),0,TRIP.typed('both s r','(both-are s u s-is r y r-is)'))
w.e('returns ! %s $'%w.look(0))
w.forget(); w.free(); w.leave(*ENDS)
w.e('by ! (exits s %s e₁ e₂ e₃ e₄ ran back r %s d₁ e₅ e₆ e₇ was-read (both-are s u s-is r y r-is))'%(LEFT,LS))
write(f.head(HEAD,USES)+MACH+f.opens()+f.agains([1,4])+OPEN+f.calls()+f.walk(w.text(10))+f.tail('round-trip-spec'),sys.argv[1])
