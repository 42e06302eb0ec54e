#!/usr/bin/env python3
"""make-text-dump-vectors.py: write crates/text_dump_vectors/data/cases.txt, and to crates/text_dump_vectors/stdout what the
program prints when every answer is right.

Run it at the top of the repository, with the path of a built oracle in the environment variable ORACLE. The seed is fixed: the
same oracle gives the same list. The cases written out here (LITERAL_*) are held to the oracle too, wherever it can be asked.
"""
import ipaddress
import os
import random
import subprocess

from listings import COLUMN_LINE as HEAD, LAYOUTS as COLS, PREAMBLE as PRE, column_line as head, route

random.seed(20240301)
ORACLE = os.environ["ORACLE"]
def ask(qs):
    r=subprocess.run([ORACLE],input='\n'.join(qs)+'\n',capture_output=True,text=True)
    a=r.stdout.split('\n')[:-1]
    assert len(a)==len(qs),(len(a),len(qs))
    return a
hx=lambda b: b.hex() if b else '-'
def addr(s):
    a=ipaddress.ip_address(s)
    return '4:%d'%int(a) if a.version==4 else '6:%d:%d'%(int(a)>>64,int(a)&(2**64-1))
def pfx(s):
    a,l=s.rsplit('/',1); return addr(a)+'/'+l
out=[]
def emit(rows):
    out.extend('%s\t%s'%r for r in rows)
# ---- detection
texts=[]
marks=[b'BGP table',b'Next Hop',b'Status codes:']
for m in marks:
    for k in range(112,130):
        texts.append(b'a'*k+m); texts.append(b'a'*k+m+b'\xff\xfe')
    for j in range(len(m)):
        texts.append(m[:j]+bytes([m[j]^0x20])+m[j+1:])
    for f in (0x20,0x21,0x7e,0x7f,0x80,0x0a,0x09,0xc3):
        texts.append(bytes([f])+m)
    for ch in ('é','…','😀'):
        b=ch.encode()
        for k in range(120,130):
            texts.append(m+b'a'*(k-len(m))+b+b'tail')
texts+=[b'',b'a',b'BGP',b'BGP tabl',b'BGP  table',b'next hop']
for _ in range(150):
    n=random.randint(0,140); b=bytearray(random.choice(b'aB Next Hop:\xc3\xa9') for _ in range(n))
    if random.random()<.7:
        m=random.choice(marks); k=random.randint(0,n); b[k:k]=m
    texts.append(bytes(b))
qs=['detect '+hx(t) for t in texts]
emit(list(zip(qs,ask(qs))))
# ---- headers
hs=[]
for n in (0,1,5,61,62,63,64,65): # header line number n+1
    hs.append(b'x\n'*n+HEAD+b'\nbody\n'); hs.append(b'x\n'*n+HEAD)
hs.append(PRE+HEAD+b'\n*> 1.0.0.0/8\n')
import itertools
names=[b'Next Hop',b'Metric',b'LocPrf',b'Weight',b'Path']
for p in itertools.permutations(range(5)):
    hs.append(b'Network '+b'  '.join(names[i] for i in p)+b'\n')
for i in range(5):
    hs.append(b' '.join(names[j] for j in range(5) if j!=i)+b'\n')
    for j in range(6):
        l=list(names); l.insert(j,names[i]); hs.append(b' '.join(l)+b'\n')
    for bad in (names[i].lower(),names[i]+b'x',b'x'+names[i],names[i][:-1]):
        l=list(names); l[i]=bad; hs.append(b' '.join(l)+b'\n')
for g in (b' ',b'\t',b'\x0b',b'\x0c',b'\r',b'\xc2\xa0',b'\xe2\x80\x83',b'  ',b'\xc2\x85'):
    hs.append(b'Next'+g+b'Hop Metric LocPrf Weight Path'+g+b'\n')
    hs.append(b'Next Hop'+g+b'Metric LocPrf Weight Path\n')
    hs.append(b'Next Hop Metric LocPrf Weight Path'+g+b'\n')
hs+= [b'Next Next Hop Metric LocPrf Weight Path\n',b'Next Hop Hop Metric LocPrf Weight Path\n',b'Next Next Hop Hop Next Metric LocPrf Weight Path Next\n',b'Next Hop Next Hop Metric LocPrf Weight Path\n']
C=HEAD+b'\n'
vs=[b'BGP table version is %s, local router ID is %s, vrf id 0'%(v,r) for v in (b'7',b'+7',b'',b' 9 ',b'x',b'18446744073709551615',b'18446744073709551616',b'-1',b'007') for r in (b'1.2.3.4',b'x',b' 2001:db8::1 ',b'')]
vs+=[b'BGP table version is 7',b'BGP table version is 7,',b'BGP table version is7, local router ID is 1.1.1.1,',b'BGP table version 7, local router ID is 1.1.1.1,',b' BGP table version is 7, local router ID is 1.1.1.1,',b'BGP table version is 7, local router ID is 1.1.1.1',b'BGP table version is 7, local router ID is 1.1.1.1 local router ID is 2.2.2.2,',b'BGP table version is 7, local router ID is 1.1.1.1, local router ID is 2.2.2.2,',b'BGP table version is 7 local router ID is 1.1.1.1, x',b'BGP table version is x, y',b'BGP table version is 5, local router ID is local router ID is 1.1.1.1,',b'BGP table version is 5, local router ID is 1.1.1.1,\xc2\xa0',b'BGP table version is \xc2\xa05\xc2\xa0, z',b'BGP table version is 5,, local router ID is 9.9.9.9,,']
ls=[b'Default local pref 100, local AS %s'%v for v in (b'64500',b'+1',b'',b'x',b'4294967295',b'4294967296',b' 12 ',b'5 local AS ',b'5 local AS 6',b'5 local AS',b'1.1')]
ls+=[b'Default local pref',b'Default local prefix local AS 7',b'default local pref local AS 7',b' Default local pref local AS 7',b'Default local preflocal AS 7',b'local AS 7',b'Default local pref 1, local AS\xc2\xa07',b'Default local pref 1, local AS  local AS 3']
for v in vs: hs.append(v+b'\n'+C); hs.append(PRE+v+b'\n'+C)
for v in ls: hs.append(v+b'\n'+C); hs.append(PRE+v+b'\n'+C)
for _ in range(400):
    k=random.randint(0,5)
    hs.append(b'\n'.join(random.choice(vs+ls+[b'',b'Status codes: s',b'\xff' if random.random()<.3 else b'y']) for _ in range(k))+b'\n'+random.choice([C,b'',HEAD,b'Default local pref 1, local AS 5 Next Hop Metric LocPrf Weight Path\n',b'BGP table version is 3, local router ID is 5.5.5.5, Next Hop Metric LocPrf Weight Path\n']))
for _ in range(200):
    b=bytearray(PRE+C); 
    for _ in range(random.randint(1,3)):
        i=random.randrange(len(b)); r=random.random()
        if r<.4: b[i]=random.choice(b' ,\n\tNH\xc2x')
        elif r<.7: del b[i]
        else: b[i:i]=random.choice([b' ',b',',b'\n',b'\xc2\xa0',b'local AS ',b'\xff',b'Next Hop '])
    hs.append(bytes(b))
hs=[h for h in hs if len(h)<2000]
def unreadable_line(h):
    # the line met by the scan that is not UTF-8: asked by elems
    a=ask(['elems 0 '+hx(h)])[0]; assert a.startswith('error utf8 line='),a
    return a[len('error utf8 line='):]
def header_answers(hs):
    ans=[]
    for a,h in zip(ask(['header '+hx(h) for h in hs]),hs):
        if a=='error': ans.append('unreadable '+unreadable_line(h)); continue
        d=dict(x.split('=',1) for x in a.split(' '))
        r=d['router'];
        ans.append('%s %s %s %s %s'%(d['version'],addr(r) if r!='-' else '-',d['as'],d['columns'],d['consumed']))
    return ans
emit(list(zip(['header '+hx(h) for h in hs],header_answers(hs))))
# ---- lines
P0='77.0.0.0/8'
def listing(cols,line):
    nh,me,lp,we,pa=cols
    def row(pre,hop,rest):
        s=pre.ljust(nh)+hop
        return s.encode()+b' '*(pa-len(s))+rest+b'\n'
    return head(cols)+row('*> 77.0.0.0/8','1.1.1.1',b'1 i')+line+b'\n'+row('*','2.2.2.2',b'2 i')
cases=[]
for cols in COLS:
    base=route(cols)
    for k in range(len(base)+1): cases.append((cols,base[:k]))
    b2=route(cols,metric='12',lp='150',path='1 2 {3 4} 5 ?')
    for k in range(0,len(b2)+1): cases.append((cols,b2[:k]))
    for k in range(0,len(base)+1):
        cases.append((cols,base[:k]+b' '+base[k:])); 
        if k<len(base): cases.append((cols,base[:k]+base[k+1:]))
    for ch in ('é','\u00a0','…','\u2003','😀'):
        c=ch.encode()
        for e in (3,)+cols:
            for d in range(-5,3):
                i=e+d
                if 0<=i<=len(base): cases.append((cols,base[:i]+c+base[i:])); cases.append((cols,base[:i]+c+base[i+len(c):]))
    for t in ('i','e','?','I','E','ii','i i','? i','7','+7','-7','07','4294967295','4294967296','{1}','{ 1 }','1,2','1.1','64501 i 64502','\u00a07\u00a0i','i\u00a0','',' ','7 e','7 ?','7 i x','é i','1\u2003 2 i','1\x0b2 i','1\x1f2 i'):
        cases.append((cols,route(cols,path=t)))
    for m in ('','0','+0','00','x','-1','4294967295','4294967296','1 2'):
        cases.append((cols,route(cols,metric=m))); cases.append((cols,route(cols,lp=m)))
    for p in ('','10.0.0.0','10.1.2.3/8','10.0.0.0/33','10.0.0.0/032','2001:db8::/32','::/0','1.2.3.4/32','x','198.51.100.0/24 x','198.51.100.0 /24','03.0.0.0/8','::ffff:1.2.3.4/96','1:2:3:4:5:6:7::8/0','2001:db8::/129'):
        cases.append((cols,route(cols,prefix=p))); cases.append((cols,b'*> '+p.encode())); cases.append((cols,b'* '+p.encode())); cases.append((cols,(b'*> '+p.encode()).ljust(cols[0])+b'  ')); cases.append((cols,b'   '+p.encode()+b' i'))
    for h in ('','192.0.2.1','2001:db8::1','::','::ffff:1.2.3.4','1.2.3','192.0.02.1','192.0.2.1x','fe80::1%1','0.0.0.0'):
        cases.append((cols,route(cols,hop=h)))
        cases.append((cols,route(cols,prefix='11.0.0.0/8')[:cols[0]-1]+h.encode())); cases.append((cols,b'*> 11.0.0.0/8'.ljust(cols[0])+h.encode()))
        cases.append((cols,b'*> 11.0.0.0/8'.ljust(cols[0]-1)+h.encode()))
    for d in (b'Displayed 5 routes',b' Displayed  5 routes and 7 total paths',b'\xc2\xa0Displayed',b'displayed 5',b'Display',b'Displayed'+base[9:],b'',b'   ',b'\r',b'Total number of prefixes 5','Displayed 1234567890é and more routes than that are here'.encode()):
        cases.append((cols,d))
    for w in range(12,24):
        p=b'1.2.3.4/32'; cases.append((cols,b'*>'+b' '*(w-len(p)-2)+p)); cases.append((cols,b'*> '+(b'2001:db8:1234:5678::/64')[:w])); cases.append((cols,b'*> '+b'123.123.123.123/%d'%(w)))
    for u in (b'\xff',b'\xc3',b'\xed\xa0\x80',b'\xf4\x90\x80\x80',b'\xc0\x80'):
        for i in (0,3,cols[0],cols[1],cols[4],len(base)): cases.append((cols,base[:i]+u+base[i:]))
    for _ in range(250):
        b=bytearray(random.choice([base,b2,route(cols,prefix=''),route(cols,prefix='2001:db8::/32',hop='2001:db8::1'),b'*> 1.2.3.0/24']))
        for _ in range(random.randint(1,4)):
            i=random.randrange(len(b)+1); r=random.random()
            if r<.35: b[i:i]=random.choice([b' ',b'  ',b'1',b'.',b'i',b'\xc2\xa0',b'\xe2\x80\x83',b'/',b'\t',b'\xff',b'e'])
            elif r<.7: del b[i:i+random.randint(1,3)]
            elif i<len(b): b[i]=random.choice(b' 1.i?/:x\xc2')
        cases.append((cols,bytes(b)))
cases=[(c,l) for c,l in dict.fromkeys(cases) if b'\n' not in l]
ORI={'IGP':'i','EGP':'e','INCOMPLETE':'?','':'-'}
def line_question(group,c,l):
    return '%s %d %d %d %d %d %s'%((group,)+c+(hx(l+b'\n'),))
def line_answer(l,a):
    # what the line says, by the elements of the listing in which it stands
    parts=a.split('\t'); first=parts[0].split(' ')
    if 'utf8=yes' not in parts[0]:
        assert 'utf8=no:3' in parts[0],a
        return 'unreadable'
    els=parts[1:]; n=int(first[0]); assert n==len(els),a
    def psv(e):
        f=e.split('#'); p=f[0].split('|'); return p,f[2]
    p0,_=psv(els[0]); assert p0[4]==P0,(p0,l)
    def entry(p,asns):
        return '%s %s %s %s %s'%(addr(p[8]),p[10] or '-',p[9] or '-',ORI[p[7]],asns)
    probe=psv(els[-1])[0] if n>1 and psv(els[-1])[0][8]=='2.2.2.2' and psv(els[-1])[1]=='2' else None
    mid=els[1:len(els)-(1 if probe else 0)]
    assert len(mid)<=1
    if mid:
        p,asns=psv(mid[0])
        return 'blank '+entry(p,asns) if p[4]==P0 else 'route %s %s'%(pfx(p[4]),entry(p,asns))
    return 'invalid' if probe is None else 'passed' if probe[4]==P0 else 'wrapped '+pfx(probe[4])
def listings(cases):
    return ask(['elems_on 0 '+hx(listing(c,l)) for c,l in cases])
emit([(line_question('line',c,l),line_answer(l,a)) for (c,l),a in zip(cases,listings(cases))])
# ---- cases written out: 01's listing, and what is easily misread in 01. A group's name begins with the call's.
LISTING=(20,40,47,54,61) # the columns of 01's listing
WIDE=(30,45,52,60,70)
AT_0,AT_2,AT_6,AT_7=(0,10,17,24,31),(2,12,19,26,33),(6,16,23,30,37),(7,17,24,31,38)
LITERAL_DETECT=[
    # a mark ends by byte 128; what follows need not be UTF-8, and a character may not be cut there
    ('detect_by_byte_128',b'a'*119+b'BGP table','yes'),
    ('detect_by_byte_128',b'a'*120+b'BGP table','no'),
    ('detect_by_byte_128',b'a'*119+b'BGP table\xff','yes'),
    ('detect_by_byte_128',b'BGP table'+b'a'*118+'é'.encode(),'no'),
]
LITERAL_HEADERS=[ # the answer without the position, which is the text's length
    ('header_listing',PRE+C,'7 192.0.2.254 64500 20,40,47,54,61'),
    # each field is overwritten by itself, even with missing; a mark needs its last space, which trimming takes away
    ('header_each_field',PRE+b'BGP table version is x, y\n'+C,'- 192.0.2.254 64500 20,40,47,54,61'),
    ('header_each_field',PRE+b'Default local pref 100, local AS \n'+C,'7 192.0.2.254 64500 20,40,47,54,61'),
    ('header_each_field',PRE+b'Default local pref 100, local AS x\n'+C,'7 192.0.2.254 - 20,40,47,54,61'),
    ('header_each_field',PRE+b'Default local pref 100, local AS 5 local AS \n'+C,'7 192.0.2.254 - 20,40,47,54,61'),
    # the preamble rules read the column line too
    ('header_column_line_is_preamble',PRE+b'Default local pref 1, local AS 5 Next Hop Metric LocPrf Weight Path\n','7 192.0.2.254 - 33,42,49,56,63'),
    # a vertical tab and a no-break space are trimmed from the end, and part no tokens
    ('header_tokens',b'Next\x0bHop Metric LocPrf Weight Path\n','- - - -'),
    ('header_tokens',b'Next\xc2\xa0Hop Metric LocPrf Weight Path\n','- - - -'),
    ('header_tokens',b'Next Hop\x0bMetric LocPrf Weight Path\n','- - - -'),
    ('header_tokens',b'Next Hop\xc2\xa0Metric LocPrf Weight Path\n','- - - -'),
    ('header_tokens',b'Next Hop Metric LocPrf Weight Path\x0b\n','- - - 0,9,16,23,30'),
    ('header_tokens',b'Next Hop Metric LocPrf Weight Path\xc2\xa0\n','- - - 0,9,16,23,30'),
]
LITERAL_LINES=[
    ('line_listing',LISTING,'*> 198.51.100.0/24  192.0.2.1                0             0 64501 64502 i','route 198.51.100.0/24 192.0.2.1 0 - i 64501,64502'),
    ('line_listing',LISTING,'*                   192.0.2.2                     150      0 64503 64502 i','blank 192.0.2.2 - 150 i 64503,64502'),
    # the columns come first even where the shifted ones would look better: 92.0.2.1 is an address, .0.2.1 is none
    ('line_columns_first',LISTING,'*> 198.51.100.0/24 192.0.2.1                0             0 64501 64502 i','invalid'),
    ('line_columns_first',LISTING,'*> 198.51.100.0/24 9.0.2.1                  0             0 64501 64502 i','route 198.51.100.0/24 9.0.2.1 0 - i 64501,64502'),
    # the shift rescues a line that ends at Metric minus 1, and no shorter one
    ('line_ends_before_metric',LISTING,'*> 11.0.0.0/8       2001:db8:1111:22::1','route 11.0.0.0/8 2001:db8:1111:22::1 - - - -'),
    ('line_ends_before_metric',LISTING,'*> 11.0.0.0/8       2001:db8:1111:2::1','passed'),
    # a no-break space across Next Hop, at bytes 19 to 21: the shifted columns make the line a route
    ('line_next_hop_in_character',LISTING,'*> 11.0.0.0/8      \u00a0192.0.2.1              0             0 64501 i','route 11.0.0.0/8 192.0.2.1 0 - i 64501'),
    # byte 3 in a character: there is no prefix slice
    ('line_byte_3_in_character',LISTING,'*>é11.0.0.0/8      192.0.2.1                0             0 64501 i','blank 192.0.2.1 0 - i 64501'),
    # the lines at which the Rust panics are passed over
    ('line_rust_panics',LISTING,'Displayed  5 routesé and 7 total paths','passed'),
    ('line_rust_panics',LISTING,'Total number of preéfixes 5','passed'),
    ('line_rust_panics',LISTING,'*> 198.51.100.0/24 😀','passed'),
    # below 7 no prefix text fits before Next Hop, and a route is blank or invalid; at 7 the shortest prefix does
    ('line_next_hop_below_7',AT_0,'192.0.2.1      7             0 64501 i','blank 192.0.2.1 7 - i 64501'),
    ('line_next_hop_below_7',AT_2,'* 192.0.2.1      7             0 64501 i','blank 192.0.2.1 7 - i 64501'),
    ('line_next_hop_below_7',AT_6,'*> ::/192.0.2.1      7             0 64501 i','invalid'),
    ('line_next_hop_below_7',AT_7,'*> ::/0192.0.2.1      7             0 64501 i','route ::/0 192.0.2.1 7 - i 64501'),
    # two status bytes instead of three leave 03.0.113.0/24; `::` stands for at least one group
    ('line_no_prefix',LISTING,'* 203.0.113.0/24    192.0.2.1                0             0 64501 i','invalid'),
    ('line_no_prefix',LISTING,'* 203.0.113.0/24','passed'),
    ('line_no_prefix',WIDE,'*> 1:2:3:4:5:6:7::8/0         192.0.2.1            0              0  64501 i','invalid'),
    ('line_no_prefix',WIDE,'*> 1:2:3:4:5:6:7::8/0','passed'),
]
LITERAL_ROUTES=[ # the first line of line_columns_first: what the route carries, though its prefix is invalid
    ('route_columns_first',LISTING,'*> 198.51.100.0/24 192.0.2.1                0             0 64501 64502 i','92.0.2.1 0 - i 4501,64502'),
]
LITERAL_ASNS=[('64501 64502 i',[64501,64502]),('64501',[64501]),('1 {2} 3 x 4294967296 4 i 5 ?',[1,3,4,5]),('i',[]),('',[])]
MARK=9 # what each AS place holds before the call
def numbers(a):
    # an answer with its addresses as numbers
    w=a.split(' ')
    if w[0] in ('route','wrapped'): w[1]=pfx(w[1])
    if w[0] in ('route','blank'): w[-5]=addr(w[-5])
    return ' '.join(w)
def held(said,asked):
    assert said==asked,(said,asked)
rows=[('%s %s'%(g,hx(t)),a) for g,t,a in LITERAL_DETECT]
held([a for q,a in rows],ask(['detect '+hx(t) for g,t,a in LITERAL_DETECT])); emit(rows)
rows=[]
for g,t,a in LITERAL_HEADERS:
    w=a.split(' ')
    rows.append(('%s %s'%(g,hx(t)),'%s %s %s %s %d'%(w[0],w[1] if w[1]=='-' else addr(w[1]),w[2],w[3],len(t))))
held([a for q,a in rows],header_answers([t for g,t,a in LITERAL_HEADERS])); emit(rows)
for g,c,l,a in LITERAL_LINES:
    l=l.encode()
    if g=='line_next_hop_below_7': # no element but the one at 7
        held('0 utf8=yes' if c[0]<7 else '1 utf8=yes',ask(['elems 0 '+hx(head(c)+l+b'\n')])[0].split('\t')[0])
    else:
        said=listings([(c,l)])[0]
        held(numbers(a),line_answer(l,said)); held(g=='line_rust_panics',' panics=1' in said.split('\t')[0])
    emit([(line_question(g,c,l),numbers(a))])
emit([(line_question(g,c,l.encode()),addr(a.split(' ')[0])+a[a.index(' '):]) for g,c,l,a in LITERAL_ROUTES])
for t,v in LITERAL_ASNS: # too few places by all and by one, just enough, one more
    for room in sorted({0,max(0,len(v)-1),len(v),len(v)+1}):
        left=v+[MARK]*(room-len(v)) if len(v)<=room else [MARK]*room
        emit([('put_asns %s %d'%(hx(t.encode()),room),('%d'%len(v) if len(v)<=room else 'refused 7')+''.join(',%d'%n for n in left))])
h='''# Cases of text_dump_header and text_dump_line, made by tools/make-text-dump-vectors.py from the oracle's answers (seed 20240301).
# detect: the oracle's. header: version, router ID, local AS, columns and position, addresses as numbers; an unreadable line's
# number is that of the oracle's elems. line: under columns, what a line says, by the elements of a listing in which the line stands between
# a route of 77.0.0.0/8 and a blank-prefix route: the line's element, and the prefix under which the second route is answered.
# detect_*, header_*, line_*: written out by hand from 01, and the oracle's too, but for these, whose answers are 01's alone:
# line_rust_panics, where the Rust panics; line_next_hop_below_7, where the Rust yields nothing since it remembers no prefix. In line_no_prefix
# the packaged ipnet of 2022 would read a prefix; 01 and the oracle's stand-in read none. route_*: 01's, what a route carries by the columns alone.
# put_asns: 01's. A path's part and a number of AS places that hold 9 each; the answer, and what all places hold then.
'''
open('crates/text_dump_vectors/data/cases.txt','w').write(h+'\n'.join(out)+'\n')
groups=[row.split(' ',1)[0] for row in out]
names=[g for g,_ in itertools.groupby(groups)]
assert len(names)==len(set(names)),'the cases of a group do not stand together'
open('crates/text_dump_vectors/stdout','w').write(''.join('%s: %d cases, 0 mismatches\n'%(g,groups.count(g)) for g in names))
