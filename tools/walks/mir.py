# Prints the MIR of the functions named, from what rt mir prints, in a form to read.
import sys,re
toks=re.findall(r'"[^"]*"|[()]|[^\s()]+',sys.stdin.read())
pos=0
def parse():
    global pos
    x=toks[pos]; pos+=1
    if x=='(':
        l=[]
        while toks[pos]!=')': l.append(parse())
        pos+=1
        return l
    return x
def lst(x):
    r=[]
    while isinstance(x,list) and x[0] in('lcons','tcons'):
        r.append(x[1]); x=x[2]
    return r
def ty(x):
    if isinstance(x,str): return x
    if x[0]=='tyNamed': return x[1][1].strip('"').split('::')[-1]
    if x[0]=='tyStruct': return x[1].strip('"')+'{'+','.join(ty(y) for y in lst(x[2]))+'}'
    if x[0]=='tyRef': return '&'+(x[2] if x[2]=='mut' else '')+' '+ty(x[3])
    if x[0]=='tyInt': return 'u'+x[1]
    return str(x)
def pl(x):
    s='_'+x[1]
    for p in lst(x[2]):
        if p[0]=='field': s+='.'+p[1]
        elif p[0]=='deref': s='(*'+s+')'
        else: s+=str(p)
    return s
def fl(x):
    if isinstance(x,str): return x
    if x[0]=='place': return pl(x)
    if x[0] in ('copy','move'): return pl(x[1])
    if x[0] in('lcons',): return '['+', '.join(fl(y) for y in lst(x))+']'
    if x[0] in ('tyStruct','tyNamed','tyRef','tyInt'): return ty(x)
    return '('+' '.join(fl(y) for y in x)+')'
def body(x,ind):
    p='  '*ind
    if isinstance(x,str): print(p+x); return
    if x[0]=='seq': body(x[1],ind); body(x[2],ind); return
    if x[0]=='assign': print(p+pl(x[1])+' = '+fl(x[2])); return
    if x[0] in('block','loop'):
        print(p+x[0]+' {'); body(x[1],ind+1); print(p+'}'); return
    if x[0]=='cond':
        print(p+'cond '+fl(x[1])+' {'); body(x[2],ind+1); print(p+'} else {'); body(x[3],ind+1); print(p+'}'); return
    print(p+fl(x))
prog=[]
while pos<len(toks): prog.append(parse())
want=sys.argv[1:]
def walk(f):
    n=f[1].strip('"')
    if want and not any(n.endswith('::'+w) for w in want): return
    it=f[2]
    print('fn',n,'params',it[3])
    for i,l in enumerate(lst(it[4])): print('   _%d: %s %s'%(i,ty(l[1]),l[2]))
    body(it[5],1)
for f in lst(prog[1]): walk(f)
