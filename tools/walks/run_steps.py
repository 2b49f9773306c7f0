# Writes the proof of session_steps::run_steps::run_steps to the file that it is given.
import sys
from frame import *
STEPPED=struct('StepAnswer','R')
SLOT=Callee('SlotOf','slot-of','Rattle·session_state.proofs.slot_of')
STEP=Callee('StepOf','step','Rattle·session_steps·proofs.proofs.bounded_step')
def going(x): return 'Going (%s .now) (%s .now) (%s .now) (%s .now) (%s .now) %s (%s .done)'%(x(4),x(1),x(2),x(0),x(3),par(x(5)),x(5))
f=Frame('run_steps.py','Rattle·session_steps·proofs.proofs.run_steps.run_steps',[('lent','T.the-row'),('lent','u32'),('lent','u32'),('lent','u8'),('shared','u8')],[SLOT,STEP],
    Plain(PROGRESS,'s','mach s'),('going',going(lambda i: 's' if i==5 else 'x'+sub(i)),going(lambda i: unpar(path('a',i)))))
HEAD='''-- `session_steps::run_steps::run_steps` meets its contract: a walk of its MIR, with a loop. The records' borrow is opened once, before the loop, and closed once, after it.
-- In each turn a record is read and one is stored; between the two `work`, `words` and `output` are lent again for the call of `bounded_step`, and come back.
-- The loop's state is the values of the slices and the progress, with facts: each list is as long as it was, the progress is one, and what `Between` says.
-- It falls by `ahead`. Assumes nothing.
'''
USES='''use Rattle·session_state.proofs.checkpoints.Rows.{byte-fits, the-vals, the-tells, the-typed, after}
use Rattle·session_state.specs.declared.progress.Progress.{Progress}
use Rattle·session_state.specs.declared.progress.StepAnswer.{StepAnswer}
use Rattle·session_state.specs.State.{the-file}
use Rattle·session_state.specs.Steps.{Ready}
use Rattle·session_state.proofs.progress.Progress as S
use Rattle·session_state.proofs.progress.Progress.Laws as S′
use Rattle·session_state.proofs.progress.StepAnswer as R
use Rattle·session_state.proofs.progress.StepAnswer.Laws as R′
use Rattle·session_steps·specs.specs.Driven.{Going, Driven}
use Rattle·session_steps·proofs.proofs.run_steps.Lending.{lends, comes, twice}
use Rattle·session_steps·proofs.proofs.run_steps.Between.{Values, ahead, Slot, Stepped, after-step, goes, stops, Between, at-start, in-rows, ready, goes-on, falls, at-end}
'''
MACH='''-- The machine values of the structs.
abbrev mach : Progress → Val
mach p = LL.val S.the-type S′.the-laws p

abbrev mach-c : Checkpoint → Val
mach-c c = LL.val T.the-type T′.the-laws c

'''
lists={1:'work',2:'words',3:'out'}
def own(i): return f.own(i,'(at-last x%s (m .%s))'%(sub(i),lists[i]) if i in lists else None)
REST=[x for i in range(1,5) for x in ('x%d'%i,'t%d'%i)]
rest=' ∷ '.join(x for i in range(1,5) for x in (own(i),f.tok(i)))
TURN=['row','open','obs','auth']+REST
ENDS=['obs','bor','t0']+REST
OPEN='''    abbrev file : List ℕ
    file = x₄ .now

    abbrev rows : List Checkpoint
    rows = x₀ .now

    -- Where the records are.
    abbrev b : ℕ
    b = x₀ .ptr .0

    abbrev o : ℕ
    o = x₀ .ptr .1

    -- The values that came in, and the loop's state.
    abbrev start : Values
    start = record { rows = rows; work = x₁ .now; words = x₂ .now; out = x₃ .now; progress = s }

    pub record Facts (m : Values) : Type 0 where
      pub rows-len : length (m .rows) ≡ n₀
      pub work-len : length (m .work) ≡ n₁
      pub words-len : length (m .words) ≡ n₂
      pub out-len : length (m .out) ≡ n₃
      pub progress-is : Is S.the-row (m .progress) (mach (m .progress) ∷ [])
      pub stands : Between file start m

    abbrev X : Type 0
    X = (m : Values) × Facts m

    abbrev Nearer : X → X → Type 0
    Nearer j i = ahead (j .0 .progress) < ahead (i .0 .progress)

    Nearer-wf : WellFounded Nearer
    Nearer-wf = InvImage·wf (λ (i : X). ahead (i .0 .progress)) (Nat·lt-wfRel .wf)

    -- Records as the borrow's ghost variable has them.
    abbrev coded : List Checkpoint → Gv
    coded cs = codedHoleys T.the-row .code (heres T.the-row cs)

    -- What a turn has of the parameters: the row of records, the borrow that is open, and the other slices at the present lists.
    abbrev Has : Values → List (Item 𝓤) → List (Item 𝓤)
    Has m Γ = ‵ (row T.the-row fullShare (m .rows) b o) ∷ ‵ (fobor κ₀ q₀ (Held T.the-row n₀ b o (x₀ .name)))
        ∷ ‵ (fobs (x₀ .name) (coded rows)) ∷ ‵ (fauth (x₀ .name) (coded rows))
        ∷ @REST@ ∷ Γ

    -- At exit the borrow is closed.
    abbrev Ends : Values → List (Item 𝓤)
    Ends m = ‵ (fobs (x₀ .name) (coded (m .rows))) ∷ ‵ (fbor κ₀ (Held T.the-row (length (m .rows)) b o (x₀ .name))) ∷ ‵ (flft κ₀ q₀)
        ∷ @REST@ ∷ []

    exits : (m : Values) → Facts m
        → Driven file (x₁ .now) (x₂ .now) rows (x₃ .now) s (m .work) (m .words) (m .rows) (m .out) (m .progress) (s .done)
        → ent 𝓤 (⋆ 𝓤 H A (Ends m)) (Post (mach (m .progress)))
    exits m f e =
@EXITS@

    -- The facts after a turn.
    next : (i : X) → Holds (not (i .0 .progress .done)) → (k : ℕ) (r : StepAnswer) (z₁ z₂ z₃ : List ℕ)
        → Slot file (i .0 .progress) k → Stepped file (i .0) k z₁ z₂ z₃ r
        → length z₁ ≡ length (i .0 .work) → length z₂ ≡ length (i .0 .words) → length z₃ ≡ length (i .0 .out) → Is S.the-row (r .state) (mach (r .state) ∷ [])
        → Facts (after-step (i .0) k r z₁ z₂ z₃)
    next i go k r z₁ z₂ z₃ ek e e₁ e₂ e₃ t-is = record {
      rows-len = length-set (i .0 .rows) k (r .saved) ∙ i .1 .rows-len;
      work-len = e₁ ∙ i .1 .work-len;
      words-len = e₂ ∙ i .1 .words-len;
      out-len = e₃ ∙ i .1 .out-len;
      progress-is = t-is;
      stands = goes-on file start (i .0) (i .1 .stands) (goes (i .0 .progress .done) go) k ek r z₁ z₂ z₃ e;
    }

'''
x=Walk(f,ENDS)
x.e('qed W (Ends m) ∵')
x.e('suffices ! _ (ends-at %s W bound (mach (m .progress)) (m .progress) (m .rows, (m .work, (m .words, (m .out, (tt, (tt, tt))))))'%f.spec)
x.e('(f .rows-len, (f .work-len, (f .words-len, (f .out-len, (tt, (tt, tt))))))) $ says ! e $')
x.e('fjoin ! $ pureI ! (at-slice T.the-row (at-last x₀ (m .rows)) (v₀ ∷ [])) (tt, (tt, tt))')
x.e('(ap (λ (n : ℕ). sliceVal (b, o) n ∷ []) (sym (f .rows-len)), subst (Room T.the-row) (sym (f .rows-len)) room₀) $ fjoin ! $')
x.head(2,'x0')
x.ends(['s','x4','x3','x2','x1','x0'],PROGRESS,'m .progress','(f .progress-is)',{'s':PROGRESS.owned('s','s-is')})
OPEN=fill(OPEN,REST=rest,EXITS=x.text(8))

locals=Locals(['S′.mir',slice_type('T.the-row',0),slice_type('u32',1),slice_type('u32',2),slice_type('u8',3),slice_type('u8',4,'shr'),
    'S′.mir','S′.mir',WORD,'T′.mir','R′.mir','tyBool',WORD,'tyPtr','T′.mir',*again_types('u32','u32','u8'),'tyPtr'])
params={**{i+1:'v'+sub(i) for i in range(5)},6:'mach s'}
all_locals=range(locals.n-1,-1,-1)
slot=Call(f,SLOT,[Slice(4),Plain(PROGRESS,'m .progress','mach (m .progress)','(f .progress-is)')])
step=Call(f,STEP,[Slice(i,'(again%s δ%s (m .%s))'%(sub(i),sub(i),lists[i]),True) for i in lists]+[Slice(4),
    Plain(PROGRESS,'m .progress','mach (m .progress)','(f .progress-is)'),Plain(RECORD,'rec k','mach-c (rec k)','c-is')],
    '(ν₁ ν₂ ν₃ : ℕ) (δ₁ δ₂ δ₃ : GName) (k : ℕ)','rd','(c-is : Is T.the-row (rec k) (mach-c (rec k) ∷ [])) '
    '(rd : Ready file (the-file file) (m .work) (m .words) (take 65535 (m .out)) (m .progress) (rec k))')
lent=[(i,'(m .%s)'%lists[i],'(f .%s-len)'%lists[i]) for i in lists]
ZS='(zs .0) (zs .1 .0) (zs .1 .1 .0)'

# ---- A turn.
w=Walk(f,TURN+locals.names,locals.n)
w.assign('un ! %s tt'%w.part(7,8),11,'(tt, tt)')
w.e('first ! $ branches ! '+w.ld(11))
turn=w.text(10)
on=w.fork()
on.e('(λ go. skips ! $ exec ! (𝓣 .C) (𝓣 .Λ) En (after (after body.turn-1)) (anyQ (Turned i)) $')
on.copy(4)
on.call(slot,[5,7])
on.answer(slot,USIZE,'k','u',8,[('Slot file (m .progress) k','ek')])
FITS='record { fits = byte-fits room₀ (in-k k go ek) }'
def place(p,how):   # The place of record k, to local p.
    on.assign('bin ! %s (lit ! tt) (%s)'%(on.ld(8),FITS),12,'(tt, %s)'%FITS,how)
    on.assign('bin ! %s %s tt'%(on.part(1,0),on.ld(12)),p,'(tt, tt)')
    on.e('rewrite ! %d (λ (p : ℕ). ‵ (fat fullShare tyPtr l%s 0 (vptr b p))) (sym (place-is 24 o k)) refl $'%(on.at('_%d'%p),sub(p)))
def out(is_):   # Record k out of the row.
    on.move('row')
    on.e('elem-out ! T.the-row (Is T.the-row) (shows 𝓤 H A T.the-row) the-vals the-tells fullShare (m .rows) k blank b o (in-row k go ek) (λ %s.'%is_)
    on.head(1,'cell','value','others')
def into(t):
    on.move('cell','value','others'); on.e(t+' b o (in-row k go ek) $'); on.head(3,'row')
on.comment('Record k is read.')
place(13,'init'); out('c-is')
on.assign('of-opd ! (load ! (from ! (hop ! %s (stop !))) (look-raw ! %d refl))'%(on.look(13),on.at('cell')),14,'(the-typed 𝓤 H A W (rec k) c-is)')
into('elem-back ! T.the-row fullShare (m .rows) k blank (mach-c (rec k) ∷ [])')
on.assign('of-opd ! '+on.ld(14),9,'(the-typed 𝓤 H A W (rec k) c-is)')
on.comment('`work`, `words` and `output` as the call takes them, each lent again for a lifetime of the call.')
for i in lists: on.slice_again(i+1,13+2*i,i)
for l in lent: on.lend(*l)
on.copy(4)
on.call(step,[16,18,20,5,7,9],'c-is (ready file start m (f .stands) (goes (m .progress .done) go) k ek)')
on.answer(step,STEPPED,'r','w',10,[('Stepped file m k %s r'%ZS,'e')])
on.comment('Each lifetime is ended, and its slice comes back.')
for (i,ys,e),zs in zip(lent,('(zs .0)','(zs .1 .0)','(zs .1 .1 .0)')): on.back(i,ys,e,zs,'e'+sub(i))
on.comment('The record that came back is stored at k.')
place(21,'store'); out('_')
on.e('assigns ! (of-opd ! %s) (from ! (hop ! %s (stop !))) (store-raw ! %d refl (the-typed 𝓤 H A W (r .saved) (parts r w r-is .1 .0))) $'%(on.part(10,1),on.look(21),on.at('cell')))
on.drop('value'); on.e(RECORD.owned('r .saved','(parts r w r-is .1 .0)')+' $'); on.ctx=['value']+on.ctx
into('elem-put ! T.the-row fullShare (m .rows) k (r .saved) (mach-c (r .saved) ∷ [])')
on.assign('of-opd ! '+on.part(10,0),7,PROGRESS.typed('r .state','(parts r w r-is .0)'),'store',True)
on.comment('The context of a turn again.')
on.forget(range(8,22)); on.leave(*TURN,*locals.names)
on.e(f'again ! Nearer At i (after-step m k r {ZS}, next i go k r {ZS} ek e e₁ e₂ e₃ (parts r w r-is .0))')
on.e(f'(falls file start m (f .stands) (goes (m .progress .done) go) k ek r {ZS} e)')
over=w.fork()
over.e('(λ over. jumps ! $ exec ! (𝓣 .C) (𝓣 .Λ) En body.t-3 (atRet En Post) $')
over.assign('of-opd ! '+over.ld(7),0,PROGRESS.typed('m .progress','(f .progress-is)'))
over.move('row','open','obs','auth'); over.e('closes-slice ! tt T.the-row rows (m .rows) (f .rows-len) b o $'); over.head(4,'obs','bor','t0')
over.e('returns ! %s $'%over.look(0))
over.forget([*range(8),11]); over.free(); over.leave(*ENDS)
over.e('by ! (exits m f (at-end file start m (f .stands) (stops (m .progress .done) over)))')

# ---- From the start to the loop.
w=Walk(f,TURN+locals.names,locals.n)
w.assign('of-opd ! '+w.ld(6),7,PROGRESS.typed('s','s-is'))
w.e('first ! $ blocks ! $ loops ! 𝓣 Nearer Nearer-wf At turns (start, record { rows-len = refl; work-len = refl; words-len = refl; out-len = refl; progress-is = s-is; stands = at-start file start going })')
LOOP='''      -- The context of a turn, and its postcondition: it ends nearer to the end, or the loop is left and the rest of the body runs.
      abbrev At : X → List (Item 𝓤)
      At i = Has (i .0) (@AT@)

      abbrev Turned : X → Out → SProp 𝓤
      Turned i = afterTurn 𝓤 H (Below 𝓤 H A Nearer At i) (afterBlock 𝓤 H (afterSeq 𝓤 H (Wp 𝓤 H (𝓣 .C) (𝓣 .Λ) En body.t-3 (atReturn 𝓤 H En Post)) (atReturn 𝓤 H En Post)))

      module _ (m : Values) (f : Facts m) where
        abbrev i : X
        i = (m, f)

        abbrev rec : ℕ → Checkpoint
        rec k = getD (m .rows) k blank

        in-row : (k : ℕ) → Holds (not (m .progress .done)) → Slot file (m .progress) k → k < length (m .rows)
        in-row k go ek = in-rows file start m (f .stands) (goes (m .progress .done) go) k ek

        in-k : (k : ℕ) → Holds (not (m .progress .done)) → Slot file (m .progress) k → k < n₀
        in-k k go ek = subst (λ (n : ℕ). k < n) (f .rows-len) (in-row k go ek)

        parts : (r : StepAnswer) (w : Val) → Is R.the-row r (w ∷ [])
            → Is S.the-row (r .state) (mach (r .state) ∷ []) × (Is T.the-row (r .saved) (mach-c (r .saved) ∷ []) × Unit {0})
        parts r w r-is = LL.owed R.the-type R′.the-laws r _ r-is

        -- `slot_of`: the file and the progress.
@SLOT@
        -- `bounded_step`: the slices, lent again, the file, the progress and record k.
@STEP@
        turn : Sq W (At i) (runs (𝓣 .C) (𝓣 .Λ) En body.turn-1 (anyQ (Turned i)))
        unfolding afterTurn
        turn =
@TURN@

      turns : (i : X) → Sq W (At i) (runs (𝓣 .C) (𝓣 .Λ) En body.turn-1 (anyQ (Turned i)))
      turns i = turn (i .0) (i .1)

      -- The body, from where the parameters are stored and the borrow is open.
      begins : Sq W (Has start (@START@)) (runs (𝓣 .C) (𝓣 .Λ) En body.t-1 (atRet En Post))
      begins =
@BEGINS@

'''
LOOP=fill(LOOP,AT=locals.chain(all_locals,{**params,7:'mach (i .0 .progress)'},'[]'),START=locals.chain(all_locals,params,'[]'),
    SLOT=slot.text(8),STEP=step.text(8),
    TURN='\n'.join((turn,on.text(10),over.text(10))),BEGINS=w.text(10))

w=Walk(f,['toks','owns'])
w.enter(locals.n)
w.comment("The records' borrow is opened.")
w.move('x0','t0')
w.e('fsplit ! $'); w.head(1,'pure','x0'); w.drop('pure'); w.e('fsplit ! $ opens-slice ! tt T.the-row rows b o $'); w.head(2,'row','open','obs','auth')
w.leave(*TURN,*locals.names)
w.e('begins '+locals.ids)
write(f.head(HEAD,USES)+TYPES+MACH+f.opens()+f.agains([1,2,3])+OPEN+f.calls()
    +locals.module(LOOP)+f.walk(w.text(10))+f.tail('run-steps-spec'),sys.argv[1])
