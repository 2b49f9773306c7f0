# Writes the proof of session_call::run_session::run_session to the file that it is given.
import sys
from session import *
BEGUN=struct('Begun','B')
BEGIN=Callee('Begin','begin','Rattle·session_begin.proofs.begin')
DRIVE=Callee('Drive','drive','Rattle·session_steps.proofs.run_steps.run_steps')
CLEAR=Callee('Clear','clear','Rattle·session_state.proofs.checkpoints.clear_first')
FINISH=Callee('Finish','finish','Rattle·session_answer.proofs.finish')
f=Frame('run_session.py','Rattle·session_call·proofs.proofs.run_session.run_session',
    PARAMS,[BEGIN,DRIVE,CLEAR,FINISH],Plain(MEASURE,'m','mach-m m'))
HEAD='''-- `session_call::run_session::run_session` meets its contract: a walk of its MIR. It knows of the four functions that it calls that each meets its contract.
-- `work` is lent again to `begin`, and all four slices to `run_steps`; then the records go to `clear_first` for good, and the other three to `finish`.
-- A part of the walk for each call, the last one first.
-- Assumes nothing.
'''
MINE=USES+'''use Rattle·words.specs.Lists.{Bytes}
use Rattle·path.specs.Measure.{measure-of}
use Rattle·session_state.specs.declared.progress.Progress.{Progress}
use Rattle·session_state.proofs.progress.Progress as S
use Rattle·session_state.proofs.progress.Progress.Laws as S′
use Rattle·session_steps.specs.Driven.{Driven}
use Rattle·session_begin.specs.declared.Begun.{Begun}
use Rattle·session_begin.specs.Begins.{asked, Begins}
use Rattle·session_begin.proofs.Begun as B
use Rattle·session_begin.proofs.Begun.Laws as B′
use Rattle·session_answer.specs.Answer.{answer-of, answer-at, Cleared}
use Rattle·session_call·proofs.proofs.Calling.{run-asks, clear-asks, finish-asks, call-result, reads-back}
'''
MACHS='''-- The machine values of the structs, and of a measure.
abbrev mach-b : Begun → Val
mach-b b = LL.val B.the-type B′.the-laws b

abbrev mach-p : Progress → Val
mach-p p = LL.val S.the-type S′.the-laws p

'''+MACH
HAS=[x for i in range(5) for x in ('x%d'%i,'t%d'%i)]
LEFT=['f3','t3']+[x for i in (0,1,2,4) for x in ('x%d'%i,'t%d'%i)]
OPEN='''    -- What is had of the parameters, with these lists: the slices and the tokens; and the same once the records are given up.
    abbrev Has : @LISTS@ → List (Item 𝓤) → List (Item 𝓤)
    Has w ws cs o Γ = @HAS@ ∷ Γ

    abbrev Left : @LISTS@ → List (Item 𝓤) → List (Item 𝓤)
    Left w ws cs o Γ = @LEFT@ ∷ Γ

'''
OPEN=fill(OPEN,LISTS=LISTS,HAS=had(f,HAS),LEFT=had(f,LEFT))+exits(f,'(measure-of m)')

locals=Locals(['R′.mir',slice_type('u8',0,'shr'),slice_type('u32',1),slice_type('u32',2),slice_type('T.the-row',3),slice_type('u8',4),
    'D′.mir',WORD,WORD,'B′.mir','S′.mir',WORD,'S′.mir',*again_types('u32','T.the-row','u32','u32','u8'),'tyUnit',*again_types('T.the-row','u32','u32','u8')])
TEMPS='''      -- The locals between two calls: those for the calls' arguments hold nothing, and the parameters are as they came in. Γ is what the others hold.
      abbrev Temps : List (Item 𝓤) → List (Item 𝓤)
      Temps Γ = %s

      abbrev Params : List (Item 𝓤)
      Params = %s

'''%(locals.chain(range(31,12,-1),{},'Γ'),locals.chain(range(6,-1,-1),{6:'mach-m m',**{i+1:'v'+sub(i) for i in range(5)}},'[]'))
def between(vs): return '(Temps (%s))'%locals.chain(range(12,6,-1),vs,'Params')
START={10:'mach-p (b .start)',12:'mach-p p'}
now_in='m input (x₁ .now) (x₂ .now) (x₃ .now) (x₄ .now) b w₁ lw₁ (began .1)'
now_run=now_in+' p w₂ ws₂ cs₂ o₂ lw₂ lws₂ lcs₂ lo₂ drove'

# ---- What each call is handed.
begin=Call(f,BEGIN,[Slice(0),Slice(1,'(again₁ δ₁ (x₁ .now))',True),
    Plain(USIZE,'n₂','vint w64 n₂','(refl, room₂ .0)'),Plain(USIZE,'n₃','vint w64 n₃','(refl, room₃ .0)'),Plain(MEASURE,'m','mach-m m','m-is')],'(ν₁ : ℕ) (δ₁ : GName)')
drive=Call(f,DRIVE,[Slice(3,'(again₃ δ₃ (x₃ .now))',True),Slice(1,'(again₁ δ₁ w₁)',True),
    Slice(2,'(again₂ δ₂ (x₂ .now))',True),Slice(4,'(again₄ δ₄ (x₄ .now))',True),Slice(0),
    Plain(PROGRESS,'b .start','mach-p (b .start)','start-is')],'(ν₁ ν₂ ν₃ ν₄ : ℕ) (δ₁ δ₂ δ₃ δ₄ : GName)','(run-asks %s)'%now_in)
clear=Call(f,CLEAR,[Slice(3,'(at-last x₃ cs₂)'),Plain(USIZE,'b .records','vint w64 (b .records)','(refl, records-fit)')],'','(clear-asks %s)'%now_run)
finish=Call(f,FINISH,[Slice(1,'(at-last x₁ w₂)'),Slice(2,'(at-last x₂ ws₂)'),Slice(4,'(at-last x₄ o₂)'),
    Plain(BOOL,'b .start .done','vbool (b .start .done)','refl'),Plain(PROGRESS,'p','mach-p p','p-is')],'','(finish-asks %s)'%now_run)

# ---- The parts of the walk.
def part(ctx): return Walk(f,ctx+locals.names,locals.n)
def sq(ctx,t): return 'Sq W (%s) (runs (𝓣 .C) (𝓣 .Λ) En body.%s (atRet En Post))'%(ctx,t)

w=part(HAS)
w.assign('of-opd ! '+w.part(3,1),7,'(tt, record { fits = room₂ .0 })')
w.assign('of-opd ! '+w.part(4,1),8,'(tt, record { fits = room₃ .0 })')
w.slice_again(2,13,1)
w.lend(1,'(x₁ .now)','refl')
w.copy(0)
w.call(begin,[1,14,7,8,6])
w.answer(begin,BEGUN,'b','u',9,[('Began b (zs .1 .0)','began')])
w.comment('Work comes back.')
w.back(1,'(x₁ .now)','refl','(zs .1 .0)','e₁')
w.forget([7,8,13,14]); w.leave(*HAS,*locals.names)
w.e('let parts = LL.owed B.the-type B′.the-laws b _ b-is in second b (zs .1 .0) e₁ began (parts .0) (parts .1 .0 .1)')
begins=w.text(10)

w=part(HAS)
w.assign('of-opd ! '+w.part(9,0),10,PROGRESS.typed('b .start','start-is'))
w.assign('of-opd ! '+w.part(9,1),11,'(tt, record { fits = records-fit })')
for src,p,i in ((4,15,3),(2,17,1),(3,19,2),(5,21,4)): w.slice_again(src,p,i)
w.comment('The slices are lent again, each for a lifetime of the call.')
lent=((3,'(x₃ .now)','refl','(zs .0)'),(1,'w₁','lw₁','(zs .1 .0)'),(2,'(x₂ .now)','refl','(zs .1 .1 .0)'),(4,'(x₄ .now)','refl','(zs .1 .1 .1 .0)'))
for i,ys,e,zs in lent: w.lend(i,ys,e)
w.copy(0)
w.call(drive,[16,18,20,22,1,10])
w.answer(drive,PROGRESS,'p','u',12,[('Drove p (zs .1 .0) (zs .1 .1 .0) (zs .0) (zs .1 .1 .1 .0)','drove')])
w.comment('Each lifetime is ended, and its slice comes back.')
for i,ys,e,zs in lent: w.back(i,ys,e,zs,'e'+sub(i))
w.forget([9,*range(15,23)]); w.leave(*HAS,*locals.names)
w.e('third p (zs .1 .0) (zs .1 .1 .0) (zs .0) (zs .1 .1 .1 .0) e₁ e₂ e₃ e₄ drove '+PROGRESS.spelled('p','p-is'))
second=w.text(12)

w=part(HAS)
w.slice_again(4,24,3)
w.call(clear,[25,11])
w.answer(clear,UNIT,'r','u',23,[('Emptied (zs .0)','emptied')])
w.forget([11,23,24,25]); w.leave(*LEFT,*locals.names)
w.e('last (zs .0) e₃ emptied')
third=w.text(14)

w=part(LEFT)
for src,p,i in ((2,26,1),(3,28,2),(5,30,4)): w.slice_again(src,p,i)
w.call(finish,[27,29,31,(10,8),12])
w.answer(finish,ANSWER,'r','u',0,[('Finished r (zs .0) (zs .1 .0) (zs .1 .1 .0)','finished')])
w.e('returns ! %s $'%w.look(0))
w.forget([0,1,2,3,4,5,6,10,12,*range(26,32)]); w.free(); w.leave(*ENDS)
w.e('by ! (closes r (zs .0) (zs .1 .0) cs₃ (zs .1 .1 .0) e₁ e₂ lcs₃ e₄ %s emptied finished)'%ANSWER.spelled('r','r-is'))
last=w.text(14)

PARTS='''      -- What `begin` says.
      abbrev Began : Begun → List ℕ → Type 0
      Began b w₁ = Bytes input × Begins m input (x₁ .now) n₂ n₃ w₁ b (asked input n₁ n₂ n₃)

      module _ (b : Begun) (w₁ : List ℕ) (lw₁ : length w₁ ≡ n₁) (began : Began b w₁)
          (start-is : Is S.the-row (b .start) (mach-p (b .start) ∷ [])) (records-fit : b .records < 2 ^ 64) where
        -- What `run_steps` says.
        abbrev Drove : (p : Progress) (w₂ ws₂ : List ℕ) (cs₂ : List Checkpoint) (o₂ : List ℕ) → Type 0
        Drove p w₂ ws₂ cs₂ o₂ = Driven input w₁ (x₂ .now) (x₃ .now) (x₄ .now) (b .start) w₂ ws₂ cs₂ o₂ p (b .start .done)

        module _ (p : Progress) (w₂ ws₂ : List ℕ) (cs₂ : List Checkpoint) (o₂ : List ℕ)
            (lw₂ : length w₂ ≡ length w₁) (lws₂ : length ws₂ ≡ n₂) (lcs₂ : length cs₂ ≡ n₃) (lo₂ : length o₂ ≡ n₄)
            (drove : Drove p w₂ ws₂ cs₂ o₂) (p-is : Is S.the-row p (mach-p p ∷ [])) where
          -- What `clear_first` and `finish` say.
          abbrev Emptied : List Checkpoint → Type 0
          Emptied cs₃ = cs₃ ≡ replicate (b .records) blank ++ skip (b .records) cs₂

          abbrev Finished : SessionAnswer → (w₃ ws₃ o₃ : List ℕ) → Type 0
          Finished r w₃ ws₃ o₃ = (answer-of r ≡ answer-at p) × Cleared p w₂ ws₂ o₂ w₃ ws₃ o₃ (b .start .done)

          -- The end of the call: both clauses, from what the calls say.
          closes : (r : SessionAnswer) (w₃ ws₃ : List ℕ) (cs₃ : List Checkpoint) (o₃ : List ℕ)
              → length w₃ ≡ length w₂ → length ws₃ ≡ length ws₂ → length cs₃ ≡ length cs₂ → length o₃ ≡ length o₂
              → Is R.the-row r (mach-r r ∷ []) → Emptied cs₃ → Finished r w₃ ws₃ o₃ → ent 𝓤 (⋆ 𝓤 H A (Ends w₃ ws₃ cs₃ o₃)) (Post (mach-r r))
          closes r w₃ ws₃ cs₃ o₃ lw₃ lws₃ lcs₃ lo₃ r-is emptied finished =
              exits r w₃ ws₃ cs₃ o₃ (lw₃ ∙ lw₂ ∙ lw₁) (lws₃ ∙ lws₂) (lcs₃ ∙ lcs₂) (lo₃ ∙ lo₂) r-is same
              (reads-back m input (began .0) (slices (x₁ .now) (x₂ .now) (x₃ .now) (x₄ .now)) (result-of r w₃ ws₃ cs₃ o₃) same)
            where
              same : Said r w₃ ws₃ cs₃ o₃
              same = call-result @RUN@ r w₃ ws₃ cs₃ o₃ emptied finished

          -- `finish`: work, words and output, for good, and where the run ended.
@FINISH@
          last : (cs₃ : List Checkpoint) → length cs₃ ≡ length cs₂ → Emptied cs₃ → @SQ4@
          last cs₃ lcs₃ emptied =
@LAST@

          -- `clear_first`: the records, for good, and how many of them.
@CLEAR@
          third : @SQ3@
          third =
@THIRD@

        -- `run_steps`: the four slices, lent again, the file, and where the run starts.
@DRIVE@
        second : @SQ2@
        second =
@SECOND@

      -- `begin`: the file, work, lent again, and two counts.
@BEGIN@
      begins : @SQ1@
      begins =
@BEGINS@

'''
w=Walk(f,['toks','owns'])
w.enter(locals.n); w.leave(*HAS,*locals.names)
w.e('begins '+locals.ids)
PARTS=fill(PARTS,RUN=now_run,FINISH=finish.text(10),CLEAR=clear.text(10),DRIVE=drive.text(8),BEGIN=begin.text(6),
    LAST=last,THIRD=third,SECOND=second,BEGINS=begins,SQ4=sq('Left w₂ ws₂ cs₃ o₂ '+between(START),'t-20'),
    SQ3=sq('Has w₂ ws₂ cs₂ o₂ '+between({**START,11:'vint w64 (b .records)'}),'t-17'),
    SQ2=sq('Has w₁ (x₂ .now) (x₃ .now) (x₄ .now) '+between({9:'mach-b b'}),'t-6'),
    SQ1=sq('Has (x₁ .now) (x₂ .now) (x₃ .now) (x₄ .now) '+between({}),'t-1'))
write(f.head(HEAD,MINE)+TYPES+MACHS+f.opens()+f.agains([1,2,3,4])+OPEN+f.calls()
    +locals.module(TEMPS+PARTS)+f.walk(w.text(10))+f.tail('run-session-spec'),sys.argv[1])
