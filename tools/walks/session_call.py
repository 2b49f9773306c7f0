# Writes the proof of a session call, which is run_session by one measure: to the file that it is given, of the function and the measure named.
import sys
from session import *
FILE,FUNCTION,VARIANT=sys.argv[1:]
RUN=Callee('Run','one-run','Rattle·session_call·proofs.proofs.run_session.run_session')
f=Frame('session_call.py','Rattle·session_call·proofs.proofs.'+FUNCTION,PARAMS,[RUN])
HEAD='''-- `session_call::%s` meets its contract: a walk of its MIR. It knows of `run_session` that it meets its contract.
-- All slices go to it for good, and the measure is `%s`.
-- Assumes nothing.
'''%(FUNCTION,VARIANT)
MINE=USES+'''use Rattle·path.specs.declared.Measure.the-variants.{%s}
use Rattle·path.specs.Measure.{%s}
'''%(VARIANT,VARIANT.lower())
IS='(EL.owes D.the-type D′.the-laws %s tt)'%VARIANT
run=Call(f,RUN,[Slice(i) for i in range(5)]+[Plain(MEASURE,VARIANT,'mach-m '+VARIANT,IS)])
LEFT='(zs .1 .0) (zs .1 .1 .0) (zs .1 .1 .1 .0) (zs .1 .1 .1 .1 .0)'
w=Walk(f,['toks','owns'])
w.enter(15)
w.comment('The slices and the measure, as the call takes them.')
for i in range(1,5): w.slice_again(i+1,4+2*i,i)
w.assign('agg ! '+w.ops(['(lit ! tt)']),14,MEASURE.typed(VARIANT,IS))
w.copy(0)
w.call(run,[1,7,9,11,13,14])
w.answer(run,ANSWER,'r','u',0,[('Said r '+LEFT,'said'),('Reads r '+LEFT,'reads')])
w.e('returns ! %s $'%w.look(0))
w.forget(); w.free(); w.leave(*ENDS)
w.e('by ! (exits r %s e₁ e₂ e₃ e₄ %s said reads)'%(LEFT,ANSWER.spelled('r','r-is')))
write(f.head(HEAD,MINE)+'-- The machine values of the answer, and of a measure.\n'+MACH+f.opens()+exits(f,VARIANT.lower())+run.text(4)+f.calls()
    +f.walk(w.text(10))+f.tail(FUNCTION.replace('_','-')+'-spec'),FILE)
