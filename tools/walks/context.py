# A walk's context, tracked by names, so that each position is computed. Slice i is x0, x1, .. and its token t0, t1, ..; lent again, its new lifetime's
# token is n0, .., what the lender keeps lent0, .., and its last list f0, ..; local i is _0, _1, .. and its end d0, d1, ..
from terms import *
class Walk:
    def __init__(s,f,ctx,N=0): s.f=f; s.ctx=list(ctx); s.out=[]; s.N=N
    def e(s,t): s.out.append(t)
    def at(s,n):
        assert s.ctx.count(n)==1,(n,s.ctx)
        return s.ctx.index(n)
    def comment(s,t): s.out.append('-- '+t)
    def move(s,*ns):
        idx=[s.at(n) for n in ns]
        if idx==list(range(len(idx))): return
        while idx[-1]==min(i for i in range(len(s.ctx)) if i not in idx[:-1]): idx.pop()   # What follows anyway.
        s.ctx=list(ns)+[c for c in s.ctx if c not in ns]
        s.e('move ! '+lst(idx)+' $')
    def head(s,n,*new): s.ctx=list(new)+s.ctx[n:]   # The first n become these.
    def drop(s,*ns):
        for n in ns: s.move(n); s.e('drop ! $'); s.head(1)
    # ---- Locals.
    def alloc(s,N):
        s.N=N
        for i in range(N): s.e('alloc1 ! (λ l%s.'%sub(i)); s.ctx=['_%d'%i,'d%d'%i]+s.ctx
        s.e('alloc0 ! $')
    def look(s,i): return '(look ! %d refl)'%s.at('_%d'%i)
    def ld(s,i): return '(load ! (from ! (stop !)) %s)'%s.look(i)
    def part(s,i,k): return '(load ! (from ! (fld ! refl (stop !))) (look-in ! %d (sub ! %d refl (whole !))))'%(s.at('_%d'%i),k)
    def put(s,i,typed,how='init'): return '(from ! (stop !)) (%s ! %d refl %s)'%(how,s.at('_%d'%i),typed)
    def assign(s,rv,i,typed,how='init',last=False): s.e('assigns%s ! (%s) %s $'%('-last' if last else '',rv,s.put(i,typed,how)))
    def ops(s,xs):
        r='(no-more !)'
        for x in reversed(xs): r='(and-then ! %s %s)'%(x,r)
        return r
    def slice_again(s,src,p,room):   # The address of the slice in local src to local p, and the slice to the local after it.
        s.assign('addr ! (from ! (fld ! refl (hop ! (look-in ! %d (sub ! 0 refl (whole !))) (stop !))))'%s.at('_%d'%src),p,'(tt, tt)')
        s.assign('agg ! '+s.ops([s.ld(p),s.part(src,1)]),p+1,'(tt, (tt, (record { fits = room%s .0 }, tt)))'%sub(room))
    def spell(s,i,row,r,is_): s.e('rewrite ! %d (λ (z : Val). ‵ (fat fullShare %s l%s 0 z)) (ap only %s) refl $'%(s.at('_%d'%i),row.mir,sub(i),row.tells(r,is_)))
    def forget(s,ids=None):
        for i in ids if ids is not None else range(s.N): s.e('forget ! %d refl $'%s.at('_%d'%i))
    def free(s):
        for i in range(s.N): s.move('_%d'%i,'d%d'%i); s.e('free1 ! $'); s.head(2)
        s.e('free0 ! $')
    # ---- Several things as one, some of which are made first; and the other way round.
    def gather(s,n,ns,how,made={}):
        s.e('nothing ! $'); s.ctx=[n]+s.ctx
        for x in ns:
            if x in made: s.e(made[x]+' $'); s.ctx=[x]+s.ctx
            s.move(x,n); s.e(how+' ! $'); s.head(2,n)
    def scatter(s,n,ns,how):
        s.move(n)
        for x in ns: s.e(how+' ! $'); s.head(1,x,n); s.move(n)
        s.drop(n)
    def asks(s,owns,toks,made,says):   # What a call asks.
        s.comment('What the parameters own; and the tokens.')
        s.gather('X',owns,'fjoin',made); s.gather('Y',toks,'join')
        s.e('frame ! $ done !' if says else 'join ! $ frame ! $ done !')
    def ends(s,owns,row,r,is_,made={},says=True):   # The end, with the answer r.
        s.comment('The tokens; and what is had of the parameters.')
        s.gather('Y',['t%d'%i for i in reversed(range(s.f.n))],'join'); s.gather('X',owns,'fjoin',made)
        if says: s.move('Y','X'); s.e('frame ! $ frame ! $'); s.e(row.owned(r,is_)+' $ done !')
        else: s.e(row.owned(r,is_)+' $'); s.ctx=['R']+s.ctx; s.move('X','R'); s.e('join ! $'); s.head(2,'XR'); s.move('Y','XR'); s.e('join ! $ frame ! $ done !')
    # ---- The entry.
    def enter(s,N):
        f=s.f; toks=' ⊛ '.join(f.tok(i) for i in range(f.n)); rows=[f.slice(i) for i in range(f.n)]+([f.plain.row.row] if f.plain else [])
        s.e('qed W ((%s ⊛ ‵ ftrue) ∷ ‵ (owns %s a vals) ∷ []) ∵ enter ! (𝓣 .C) (𝓣 .Λ) code.function %s _ $'%(toks,lst(rows),lst(f.vs)))
        s.alloc(N); s.e('params1 ! $')
        for i in range(f.n): s.e('pass1 ! (init ! %d refl (tt, (tt, (record { fits = room%s .0 }, tt)))) $'%(s.at('_%d'%(i+1)),sub(i)))
        if f.plain: s.e('pass1 ! (init ! %d refl %s) $'%(s.at('_%d'%(f.n+1)),f.plain.row.typed(f.plain.name,f.plain.name+'-is')))
        s.e('pass0 ! $')
        s.comment('What the parameters own, and the tokens, one by one.')
        s.scatter('owns',['x%d'%i for i in range(f.n)]+(['plain'] if f.plain else []),'fsplit')
        if f.plain: s.drop('plain')
        s.scatter('toks',['t%d'%i for i in range(f.n)],'split')
    def copy(s,i):   # A shared slice, twice.
        s.comment('A copy of `file` is kept.')
        s.move('x%d'%i); s.e('twice ! u8 %d κ%s x%s (v%s ∷ []) $'%(i,sub(i),sub(i),sub(i))); s.head(1,'x%d'%i,'copy%d'%i)
    # ---- A slice at the list ys is lent again, for a lifetime of a call, and comes back at zs.
    def lend(s,i,ys,e):
        s.move('x%d'%i,'t%d'%i); s.e('lends ! tt %s (λ ν%s δ%s.'%(s.f.lent(i,ys,e),sub(i),sub(i))); s.head(2,'x%d'%i,'n%d'%i,'lent%d'%i)
    def back(s,i,ys,e,zs,eq):
        s.move('n%d'%i,'lent%d'%i,'f%d'%i); s.e('comes ! tt %s ν%s δ%s %s room%s %s $'%(s.f.lent(i,ys,e),sub(i),sub(i),zs,sub(i),eq)); s.head(3,'x%d'%i,'t%d'%i)
    def dies(s,n): s.move(n); s.e('lft-end ! tt $'); s.head(1,'dead')   # The lifetime with the token n.
    # ---- A call, which answers r, and v in the machine, to local i. It says the facts, (fact, name) each; e₁, .. say how long the last lists are.
    def call(s,c,args,premises=''):   # Its arguments are locals, or (local, field).
        s.move(*[x for a in c.slices for x in (a.name,a.tokname)])
        n=2*len(c.slices); X=c.callee.contract
        s.e('group ! %d $ use1 W (raw (%s .pre %s)) %s $'%(n,X,c.to,par((unpar(c.goes)+' '+premises).strip()))); s.head(n,'pre')
        s.ctx=[x.replace('copy','x') for x in s.ctx]
        s.e('calls-at ! fm %s %s %s %s'%(X,c.callee.known,c.to,s.ops([s.part(*a) if isinstance(a,tuple) else s.ld(a) for a in args])))
    def answer(s,c,row,r,v,i,facts=None,eqs={}):
        x=c.name; at='%s %s'%(c.ks,c.given)
        said=' ⊛ '.join('raw (fact 𝓤 (%s))'%t for t,_ in facts) if facts else 'raw (%s.clauses 𝓤 H A mem run %s .ensures tt %s (atExit %s.ended %s %s))'%(x,at,r,x,at,c.zs)
        s.e('(λ %s. use1 W (later (some (λ (%s : %s). ((%s ⊛ ‵ ftrue) ⊛ ‵ (%s .own %s (%s ∷ [])))'%(v,r,row.ty,' ⊛ '.join(a.tok for a in c.slices),row.row,r,v))
        s.e('⊛ some (λ (%s : %s). ‵ (lasts %s.ended %s %s) ⊛ %s)))) (id⊢ 𝓤 _) $'%(c.zs,times(c.last),x,at,c.zs,'(%s)'%said if facts and len(facts)>1 else said))
        s.e('await ! tt $ pick ! (λ %s. split ! $'%r); s.head(1,'tr','ens'); s.move('ens'); s.e('pick ! (λ %s. split ! $'%c.zs); s.head(1,'lasts','facts'); s.move('facts')
        if not facts: s.drop('facts')
        else:
            for _ in facts[1:]: s.e('split ! $')
            s.head(1)
            for t,n in facts: s.e('heard ! _ (λ %s.'%n)
        s.comment('Each last list, and its length.')
        mine=[None if t=='Unit {0}' else a.i for t,a in zip(c.last,c.args)]
        while mine and mine[-1] is None: mine.pop()
        s.move('lasts')
        for k in mine:
            s.move('lasts'); s.e('fsplit ! $'); s.head(1,'one','lasts')
            if k is None: s.drop('one'); continue
            s.e('fsplit ! $'); s.head(1,'f%d'%k,'long'); s.move('long'); s.e('feqL ! (λ %s.'%eqs.get(k,'e'+sub(k))); s.head(1)
        s.drop('lasts')
        s.move('tr'); s.e('split ! $'); s.head(1,'toks','answer'); s.move('answer')
        s.e('facts ! %s (Is %s) (shows 𝓤 H A %s) %s (%s ∷ []) (λ %s-is.'%(row.row,row.row,row.row,r,v,r)); s.head(1)
        s.e('land ! %s $'%s.put(i,row.typed(r,r+'-is')))
        if row.tells: s.spell(i,row,r,r+'-is')
        s.scatter('toks',[a.tokname for a in c.slices],'split')
    # ---- The text.
    def leave(s,*ns):   # Nothing else is had.
        assert sorted(ns)==sorted(s.ctx),(sorted(ns),sorted(s.ctx))
        s.move(*ns)
    def fork(s): return Walk(s.f,s.ctx,s.N)
    def text(s,indent):   # A new line after a comment, before a statement, and where one is full. At the end what is open is closed.
        lines=[]; cur=''
        for o in s.out:
            new=o.startswith('-- ') or o.split(' ')[0] in ('assigns','calls-at','lft-new','lends','land','returns','heard','by')
            if cur and (new or indent+len(cur)+len(o)+1>WIDTH): lines.append(cur); cur=''
            cur=(cur+' '+o).strip()
            if o.startswith('-- '): lines.append(cur); cur=''
        if cur: lines.append(cur)
        code='\n'.join(l for l in lines if not l.startswith('-- '))
        return '\n'.join(' '*indent+l for l in lines)+')'*(code.count('(')-code.count(')'))
