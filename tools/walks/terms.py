# The terms that more than one walk writes.
import re
def sub(i): return ''.join('₀₁₂₃₄₅₆₇₈₉'[int(c)] for c in str(i))
def items(xs): return ' ∷ '.join(list(map(str,xs))+['[]'])
def lst(xs): return '('+items(xs)+')'
def par(t): return '('+t+')' if ' ' in t else t
def unpar(t):
    depth=0
    for i,c in enumerate(t):
        depth+=(c=='(')-(c==')')
        if depth==0: return t[1:-1] if i and i==len(t)-1 else t
def nest(xs):
    r='tt'
    for x in reversed(xs): r='(%s, %s)'%(x,r)
    return r
def times(xs):
    r='Unit {0}'
    for x in reversed(xs): r='%s × %s'%(x,'('+r+')' if '×' in r else r)
    return r
def path(base,i): return '(%s%s .0)'%(base,' .1'*i)
def each(p,n): return ' '.join(p+sub(i) for i in range(n))
def new(nu): return '(%s ∷ [])'%nu
def token(k,q): return '‵ (flft %s %s)'%(k,q)
# The MIR types: of a word, of a slice that is parameter j or lent again, and of the reference in one that is lent again.
WORD='(tyInt w64)'
def slice_type(elem,j=None,kind='mut'): return '(%s-slice %s %s)'%(kind,'erased' if j is None else '(named %d)'%j,elem)
def again_types(*elems): return [t for e in elems for t in ('(mut-ref %s)'%e,slice_type(e))]
TYPES='''-- The MIR types of slices, and of the reference in one that is lent again.
abbrev mut-ref : RattleType → Ty
mut-ref R = tyRef erased mut (pointee (R .written))

abbrev mut-slice : Lifetime → RattleType → Ty
mut-slice ℓ R = sliceTy (tyRef ℓ mut (pointee (R .written)))

abbrev shr-slice : Lifetime → RattleType → Ty
shr-slice ℓ R = sliceTy (tyRef ℓ imm (pointee (R .written)))

'''
# What a walk knows of a type of values: its row, that it is lawful, what makes a value owned, what tells its machine value, and its MIR type.
class Row:
    def __init__(s,ty,row,lawful,makes,tells,mir,laws=None): s.ty,s.row,s.lawful,s.makes,s.tells,s.mir,s.laws=ty,row,lawful,makes,tells,mir,laws
    def law(s,n): return '%s.%s %s'%(s.laws[0],n,s.laws[1])   # A law of a declared type.
    def typed(s,x,is_): return '(%s .typed %s _ %s .0)'%(s.lawful,par(x),is_)
    def owned(s,x,is_): return 'owned ! %s (Is %s) (%s) %s _ %s'%(s.row,s.row,s.makes,par(x),is_)
    def spelled(s,x,is_): return '(subst (Is %s %s) %s %s)'%(s.row,par(x),s.tells(x,is_),is_)
    def is_(s,x,v): return 'Is %s %s (%s ∷ [])'%(s.row,par(x),v)
def declared(ty,m,L,few=''):   # A declared type, whose module here is m, and whose laws are those of L.
    laws=f'{m}.the-type {m}′.the-laws'
    return Row(ty,m+'.the-row',f'{L}.lawful {laws} 𝓤 H A W{few}',f'{L}.makes {m}.the-type {m}′.the-plain 𝓤 H A',lambda x,i: f'({L}.tells {laws} {x} _ {i})',m+'′.mir',(L,laws))
def struct(ty,m): return declared(ty,m,'LL')
def enum(ty,m): return declared(ty,m,'EL',' tt')
USIZE=Row('ℕ','usize','uint-lawful 𝓤 H A W w64','uint-makes 𝓤 H A W w64',lambda x,i:'(%s .0)'%i,WORD)
BOOL=Row('bool .Denot','bool',None,'bool-makes 𝓤 H A W',None,None)
UNIT=Row('Unit {0}','unit','nothing-lawful 𝓤 H A W',None,None,'tyUnit')
RECORD=struct('Checkpoint','T')
ANSWER=struct('SessionAnswer','R')
PROGRESS=struct('Progress','S')
MEASURE=enum('Measure','D')
# A text, with these parts for the marks @NAME@.
def fill(t,**parts):
    for k,v in parts.items(): t=t.replace('@%s@'%k,v)
    return t
def list_of(elem): return 'List '+('Checkpoint' if elem=='T.the-row' else 'ℕ')
# A long line is broken: after a `$` or before an arrow or the like, where few parentheses are open; else at any space.
WIDTH=160
def wrap(line,width=WIDTH):
    if len(line)<=width or line.startswith('use ') or line.lstrip().startswith('--'): return line
    pad=len(line)-len(line.lstrip()); out=[]; first=True
    while len(line)>width:
        depth=0; best=None
        for i,c in enumerate(line[:width]):
            depth+=(c in '([{')-(c in ')]}')
            if c==' ' and i>pad+8+width//3:
                rest=line[i+1:]
                kind=0 if line[:i].endswith(' $') else 1 if rest[0] in '→∷⊛×(' else 3
                if line[:i].endswith((' λ','!',' .','∷',' let',' in','‵')) or rest.startswith('.'): kind+=4
                score=(kind//2,depth if kind else 0,-i)
                if best is None or score<=best[0]: best=(score,i)
        if best is None: break
        i=best[1]; out.append(line[:i].rstrip())
        if first: pad+=4; first=False
        line=' '*pad+line[i+1:]
    return '\n'.join(out+[line])
