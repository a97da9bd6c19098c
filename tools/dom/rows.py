import json,sys,pickle
import calls_ref as c
rows={r['name']:r for r in json.load(open(c.ORACLE + '/rows.json'))}
def src(n):
    s=rows[n]['source']
    if isinstance(s,str): s=json.loads(s)
    s=dict(s); s.pop('inputs',None); s.pop('posts',None)
    return json.dumps(s,ensure_ascii=False,separators=(',',':'))
C={}
C['row27']=(src('7'),"limits 10000 128 props","render\nrebuild\nrebuild\nwrite 1 i0\nfailing 1 render\nrender\nrebuild\n")
C['row28']=(src('14'),"limits 10000 128 props","inplace\nsettle\npause 1\nwake 1\nsettle\nquery\nresume 1\nsettle\nquery\npollnow 1\ncancel 1\nspawn 99 plain 0 i0\nclose\n")
C['row29']=(src('14'),"limits 10000 128 props","inplace\nsusp\nquery\nwake 1\nsusp\nquery\nfreeze 4\nmark 5\nsusp\nquery\npollwork 1\nmark 3\npollwork 1\nsettle\npollsusp 1\nquery\n")
C['row32']=(src('10'),"limits 10000 128 from 18446744073709551615 1 1 1 1","rebuild\nsettle\n")
C['row33a']=(src('3'),"limits 10000 128 props","tovec\nwrite 1 i1\nrendervec\n")
C['row33b']=(src('3'),"limits 10000 128 pre","query\nclose\n")
C['row33c']=(src('3'),"limits 10000 128 new","with 0 sx\nprovide 1 sy\ninplace\nquery\n")
C['row34a']=(src('12'),"limits 10000 128 props","inplace\nthrow 5 x\nsettle\nquery\ninsert 4 y\nquery\nclear 4\nquery\n")
C['row34b']=(src('14'),"limits 10000 128 props","inplace\nsettle\nafter 4 0\nspawn 3 iso 0 i0\nquery\n")
# the callback is called once the boundary turns, and what it writes is shown
called=json.loads(src('14'))
called['actions']={"Set":{"params":["c"],"do":[{"write":"c","be":5}]}}
called['components']['Article']['view']=[{"text":{"read":"d"}}]
C['row34c']=(json.dumps(called,ensure_ascii=False,separators=(',',':')),"limits 10000 128 props","inplace\nmarkctx 4\nsettle\nafter 4 0 c1\nspawn 3 iso 0 c1\nevents\nmarkctx 99\nmarkall\nrender\nwake 1\nevents\nsettle\nquery\n")
# the height that a scope may have: one too few for the child's, and just enough
C['row4a']=(src('4'),"limits 10000 3 props","rebuild\nsettle\n")
C['row4b']=(src('4'),"limits 10000 4 props","rebuild\nsettle\nwrite 1 i2\nsettle\n")
r153='{"components":{"App":{"do":[{"cell":"k","init":1},{"spawn":"t","task":"F","args":[]}],"view":[{"boundary":"suspense","kids":[{"pick":[{"read":"k"},[{"use":"Kid","props":[{"get":"t"}]}],["gone"]]}]}]},"Kid":{"params":["t"],"do":[{"suspend":"t"}],"view":[]}},"tasks":{"F":{"steps":[[],[]]}},"root":"App"}'
C['r15_3']=(r153,"limits 10000 128 props","inplace\nsettle\nwrite 1 i0\nsettle\nquery\nwake 1\nsettle\nquery\n")
r151='{"components":{"App":{"do":[{"cell":"c","init":0}],"view":[{"text":{"read":"c"}},{"use":"Kid","props":[{"get":"c"}]}]},"Kid":{"params":["c"],"do":[{"write":"c","be":1}],"view":["k"]}},"root":"App"}'
C['r15_1']=(r151,"limits 10000 128 props","rebuild\nsettle\nquery\n")
r152='{"components":{"App":{"do":[{"spawn":"t","task":"T","args":[]}],"view":["x"]}},"tasks":{"T":{"steps":[[{"let":"m","be":{"me":0}},{"act":"cancel","task":"m"}],[]]}},"root":"App"}'
C['r15_2']=(r152,"limits 10000 128 props","rebuild\npollnow 1\npollnow 1\nwake 1\nsettle\nquery\n")
# the first scope of a row has another body: its clean-up writes a cell of its own
old=json.loads(src('6'))
old['components']['Old']={"params":["s"],"do":[{"cell":"m","init":"-"},{"drop":"Set","args":[{"get":"m"},"A"]}],"view":["old"]}
C['r15_4']=(json.dumps(old,ensure_ascii=False,separators=(',',':')),"limits 10000 128 props","rebuild\nsettle\nwrite 2 i0\nsettle\nquery\nclose\n")
# where numbers stand: an inner element, a text of a second item, numbers that no node has, a hidden block's and a fallback's
C['places_a']=(src('11'),"limits 10000 128 props","place 3\nrebuild\nplace 3 9\n")
C['places_b']=(src('7'),"limits 10000 128 props","rebuild\nsettle\nwrite 1 i0\nsettle\nwrite 1 i2\nsettle\nplace 12 2\n")
C['places_c']=(src('14'),"limits 10000 128 props","inplace\nplace 1 2 3 4 5 6\nsettle\nplace 1 2 3 4 5 6\nwake 1\nsettle\nplace 1 2 3 4 5 6\n")
# what cells hold, which scopes live and what shows: a list that gets shorter, a boundary that turns
C['holds_a']=(src('7'),"limits 10000 128 props","rebuild\nsettle\nholds 1 2\nwrite 1 i0\nholds 1\nsettle\nholds 1\nwrite 1 i2\nsettle\nholds 1\n")
C['holds_b']=(src('14'),"limits 10000 128 props","inplace\nholds 1\nsettle\nwake 1\nsettle\nholds 1 2 3\n")
# sessions with a row's inputs, over sinks that fail at each edit of the table
def whole(n):
    s=rows[n]['source']
    return json.dumps(json.loads(s) if isinstance(s,str) else s,ensure_ascii=False,separators=(',',':'))
for name,edits in (('3',3),('7',5),('12',4),('14',3)):
    C['session'+name]=("session 10000 128 "+" ".join(str(k) for k in range(1,edits+1)),whole(name),"")
exp={}
for k,v in C.items():
    t="\n".join(v); open(sys.argv[1]+'/cases/'+k,'w').write(t)
    try: exp[k]=c.reference(t)
    except Exception as e: print(k,e)
# each edit of a row fails in turn, by calls
for name in ('3','7','12','14'):
    s=rows[name]['source']; s=json.loads(s) if isinstance(s,str) else s
    calls=['rebuild','settle']
    for i in s.get('inputs',[]):
        if 'write' in i: calls+=[f"write {i['write']} "+(f"i{i['be']}" if isinstance(i['be'],int) else f"s{i['be']}")]
        elif 'event' in i: calls+=[f"event {i['event']} {i['element']} n 1 0"]
        elif 'wake' in i: calls+=[f"wake {i['wake']}"]
        calls+=['settle']
    for k in range(len(calls)):
        if calls[k] not in ('rebuild','settle'): continue
        for call in (1,2,3):
            cs=list(calls); cs[k]=f"failing {call} {calls[k]}"
            t=src(name)+"\nlimits 10000 128 props\n"+"\n".join(cs)+"\nsettle\n"
            key=f"fail{name}_{k}_{call}"; open(sys.argv[1]+'/cases/'+key,'w').write(t); exp[key]=c.reference(t)
pickle.dump(exp,open(sys.argv[1]+'/expected.pkl','wb'))
print(len(exp))
# rows.py DIR CRATE: the table of the crate, each row after another; a report's line ends with its last word
if len(sys.argv)>2:
    order=sorted(exp,key=lambda n:(n.startswith('fail'),n))
    ins=[open(sys.argv[1]+'/cases/'+n).read().rstrip('\n')+'\n' for n in order]
    outs=['\n'.join(l.rstrip() if l.startswith('report') else l for l in exp[n].rstrip('\n').split('\n'))+'\n====\n' for n in order]
    open(sys.argv[2]+'/stdin','w').write('====\n'.join(ins)); open(sys.argv[2]+'/stdout','w').write(''.join(outs))
