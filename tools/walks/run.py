# Writes the proof of a function of the program session that makes a session call: to the file that it is given, of the function and the call named.
import sys
from frame import *
FILE,FUNCTION,CALLED=sys.argv[1:]
CALL=Callee('Call','call','Rattle·session_call.proofs.'+CALLED)
f=Frame('run.py','Rattle·session·proofs.proofs.'+FUNCTION,[('shared','u8'),('given','u32'),('given','u32'),('given','u8')],[CALL])
HEAD='''-- `session::%s` is safe and ends: a walk of its MIR. It knows of `%s` that it meets its contract.
-- The sixteen records are a local array, which is lent whole for a lifetime of the call (`Lent`) and comes back as room; `work`, `words` and `output` go to
-- the call for good.
-- Assumes nothing.
'''%(FUNCTION,CALLED)
USES='''use Rattle·session_answer.specs.declared.SessionAnswer.{SessionAnswer}
use Rattle·session_answer.proofs.SessionAnswer as R
use Rattle·session_answer.proofs.SessionAnswer.Laws as R′
use Rattle·session_state.proofs.checkpoints.Rows.{blank-is}
use Rattle·session_call.proofs.Lending.{twice}
use Rattle·session·proofs.proofs.Lent.{lends-array, array-back}
'''
MACH='''room : Room T.the-row 16
room = (lit< tt, lit< tt)

-- The sixteen records, and what they are in the machine.
abbrev blanks : List Checkpoint
blanks = replicate 16 blank

abbrev zeros : Val
zeros = arrayVal (replicate 16 (LL.val T.the-type T′.the-laws blank))

abbrev mach : SessionAnswer → Val
mach r = LL.val R.the-type R′.the-laws r

'''
ENDS=['x0','t0','t1','t2','t3','f1','f2','f3']
def item(n): i=int(n[1]); return f.tok(i) if n[0]=='t' else f.fin(i,'w'+sub(i)) if n[0]=='f' else f.own(i)
OPEN='''    -- The records as the call takes them.
    abbrev records : ℕ → GName → RefT (List Checkpoint)
    records l γ = record { ptr = (l, 0); name = γ; now = blanks }

@CALL@
    abbrev Ends : (w₁ w₂ w₃ : List ℕ) → List (Item 𝓤)
    Ends w₁ w₂ w₃ = @ENDS@

    exits : (r : SessionAnswer) (w₁ w₂ w₃ : List ℕ) → length w₁ ≡ n₁ → length w₂ ≡ n₂ → length w₃ ≡ n₃ → Is R.the-row r (mach r ∷ [])
        → ent 𝓤 (⋆ 𝓤 H A (Ends w₁ w₂ w₃)) (Post (mach r))
    exits r w₁ w₂ w₃ e₁ e₂ e₃ r-is =
@EXITS@

'''
x=Walk(f,ENDS)
x.e('qed W (Ends w₁ w₂ w₃) ∵ suffices ! _ (ends-at %s W bound (mach r) r (tt, (w₁, (w₂, (w₃, tt)))) (tt, (e₁, (e₂, (e₃, tt))))) $'%f.spec)
x.ends(['f3','f2','f1','x0'],ANSWER,'r','r-is',says=False)
# The records are slice 9.
RECORDS='‵ (MutSlice (named 3) (ν ∷ []) T.the-row .own (records %s γ) (sliceVal (%s, 0) 16 ∷ []))'
call=Call(f,CALL,[Slice(0),Slice(1),Slice(2),Slice(9,'(records l γ)',True,RECORDS%('l','l'),False,'T.the-row','sliceVal (l, 0) 16'),Slice(3)],'(l ν : ℕ) (γ : GName)')
OPEN=fill(OPEN,CALL=call.text(4),ENDS=items(map(item,ENDS)),EXITS=x.text(8))

w=Walk(f,['toks','owns'])
w.enter(15)
w.comment('The sixteen records.')
ARRAY='Array T.the-row 16'
w.assign('agg ! '+w.ops(['(lit ! tt)']*6),6,RECORD.typed('blank','blank-is'))
w.e(RECORD.owned('blank','blank-is')+' $ use1 W (‵ (%s .own blanks (zeros ∷ [])))'%ARRAY)
w.e('(array-repeat 𝓤 H A W T.the-row (LL.copy T.the-type T′.the-copy 𝓤 H A W) 16 blank (LL.val T.the-type T′.the-laws blank)) $')
w.ctx=['array']+w.ctx
w.e('peeks ! (%s) (Is (%s)) (shows 𝓤 H A (%s)) blanks (zeros ∷ []) (λ are.'%(ARRAY,ARRAY,ARRAY))
w.assign('rep ! 16 '+w.ld(6),5,'(array-lawful 𝓤 H A W T.the-row (%s) 16 .typed blanks (zeros ∷ []) are .0)'%RECORD.lawful)
w.comment('The slices as the call takes them.')
w.slice_again(2,7,1); w.slice_again(3,9,2)
w.assign('addr ! (from ! (stop !))',11,'(tt, tt)')
w.assign('agg ! '+w.ops([w.ld(11),'(lit ! tt)']),12,'(tt, (tt, (record { fits = lit< tt }, tt)))')
w.slice_again(4,13,3)
w.comment('The array is lent for a lifetime of the call.')
w.e('lft-new ! tt (λ ν.'); w.ctx=['n9']+w.ctx; w.move('_5','array')
w.e('use2 W (later (some (λ (γ : GName). %s ⊛ ‵ (flent (ν ∷ []) (Held T.the-row 16 l₅ 0 γ)))))'%(RECORDS%('l₅','l₅')))
w.e('(lends-array 𝓤 H A W T.the-row (named 3) (ν ∷ []) 16 l₅ tt room blanks zeros) $ await ! tt $ pick ! (λ γ. split ! $')
w.head(2,'x9','lent9')
w.copy(0)
call=call.applied('l₅','ν','γ')
w.call(call,[1,8,10,12,14])
w.answer(call,ANSWER,'r','w',0)
w.comment('The lifetime is ended, and the room of the array comes back.')
w.dies('n9'); w.move('dead','lent9','f9')
w.e('use3 W (later (‵ (froom (tyArray T′.mir 16) l₅ 0))) (array-back 𝓤 H A W T.the-row (named 3) (ν ∷ []) 16 l₅ γ (zs .1 .1 .1 .0)) $ await ! tt $'); w.head(3,'_5')
w.e('returns ! %s $'%w.look(0))
w.forget([i for i in range(15) if i!=5]); w.free(); w.leave(*ENDS)
w.e('by ! (exits r (zs .1 .0) (zs .1 .1 .0) (zs .1 .1 .1 .1 .0) e₁ e₂ e₃ %s)'%ANSWER.spelled('r','r-is'))
write(f.head(HEAD,USES)+MACH+f.opens()+OPEN+f.calls()+f.walk(w.text(10))+f.tail(FUNCTION.replace('_','-')+'-spec'),FILE)
