# Leaves out the names that a proof imports and does not use.
import re
def prune(text):
    lines=text.split('\n')
    body='\n'.join(l for l in lines if not l.startswith('use ') and not l.strip().startswith('--'))
    def used(n):
        ops=[q for q in n.split('_') if q]
        if '_' in n and ops: n=ops[0]
        return re.search(r'(?<![^\s()\[\]{},;.λ])'+re.escape(n)+r'(?![^\s()\[\]{},;.])',body) is not None
    out=[]
    for l in lines:
        m=re.match(r'use (\S+)\.\{(.*)\}$',l)
        if m:
            ns=[n for n in m[2].split(', ') if used(n.split(' as ')[-1])]
            if ns: out.append('use %s.{%s}'%(m[1],', '.join(ns)))
            continue
        m=re.match(r'use (\S+) as (\S+)$',l)
        if m and not used(m[2]) and not re.search(r'(?<![\w·])'+re.escape(m[2])+r'\.',body): continue
        out.append(l)
    return '\n'.join(out)
