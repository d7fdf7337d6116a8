#!/bin/sh
# Counts the places of the points of docs/DESIGN-PASS.md. Run it at the top of the repository:
#   sh count.sh          what each command counts: in all, and in the tests
#   sh count.sh 3a       the places that a command finds
#   sh count.sh crates   how many places of each command each crate has
# Comments do not count, but in 1i. The tests are the crates say, oracle, draws, vectors and trials.

src() { awk '{ sub(/\/\/.*/, ""); print FILENAME ":" FNR ":" $0 }' crates/*/src/*.rt; }

# What takes a look at functions, loops and structs as a whole.
look() { python3 - "$1" <<'EOF'
import difflib, glob, itertools, re, sys
what = sys.argv[1]
F, T = [], {}  # functions: place, name, parameters, what is required, body; the text of each file
def body_at(L, i, indent):  # the line that opens the body of the function at line i; none where it is only declared
    for j in range(i, len(L)):
        clauses = any(re.match(' *(requires|ensures)', l) for l in L[i:j + 1])
        if L[j] == indent + '{' or L[j].endswith('{') and not clauses:
            return j
        if L[j].endswith(';') or j > i and (L[j] == '' or re.search(r'\bfn \w', L[j])):
            return None
for f in sorted(glob.glob('crates/*/src/*.rt')):
    L = [re.sub('//.*', '', l).rstrip() for l in open(f)]
    T[f] = '\n'.join(L)
    for i, l in enumerate(L):
        m = re.match(r'( *)(?:pub(?:\(crate\))? )?(?:extern "C" )?fn (\w+)', l)
        j = m and body_at(L, i, m[1])
        if j is not None:
            sig, *clauses = re.split(r'\b(?=requires |ensures )', ' '.join(L[i:j + 1]).rstrip('{ '))
            args = re.sub(r'^.*?fn \w+(<.*?>)?\(', '', sig).split(') ->')[0].strip().rstrip(')')
            args = re.findall(r'(\w+): ((?:[^,\[]|\[[^\]]*\])+)', args)
            args = [(n, re.sub(r"&(?:'\w+ )?(?:mut )?", '&', t.strip())) for n, t in args]
            end = L.index(m[1] + '}', j)
            F.append((f'{f}:{i + 1}', m[2], args, ' '.join(c for c in clauses if c[0] == 'r'), '\n'.join(L[j + 1:end])))
def shape(body):
    d, o = {}, []
    for x in re.findall(r'[A-Za-z_]\w*|\d\w*|b?"[^"]*"|[^\s\w]', body):
        word = re.match('[A-Za-z_]', x) and not x.startswith('b"')
        if word and x not in 'let mut if else while for in return match as true false break continue self Self'.split():
            x = f'v{d.setdefault(x, len(d))}'
        o.append('#' if re.match(r'\d|b?"', x) else x)
    return o
def report(d, least):
    for k, v in sorted(d.items(), key=lambda kv: -len(kv[1])):
        if len(v) >= least:
            print('\n'.join(f'{w}: {k}' for w in v))
if what == 'same':  # functions of the same shape as one before: another only in names, types and numbers
    d = {}
    for w, n, a, r, b in F:
        o = ' '.join(shape(b))
        if o.count(' ') >= 9 and '/credits_c/' not in w and n != 'main':
            if o in d:
                print(f'{w}: {n} as {d[o]}')
            d.setdefault(o, f'{n} at {w}')
if what == 'near':  # functions that are nearly of the shape of one before
    S = [(w, n, shape(b)) for w, n, a, r, b in F]
    for a, b in itertools.combinations([x for x in S if len(x[2]) >= 30], 2):
        m = difflib.SequenceMatcher(None, a[2], b[2], False)
        if a[2] != b[2] and m.real_quick_ratio() > 0.85 and m.quick_ratio() > 0.85 and m.ratio() > 0.85:
            print(f'{b[0]}: {b[1]} nearly as {a[1]} at {a[0]}')
if what in ('one', 'several'):  # loops over a range whose number is an index and nothing else
    for w, n, a, r, b in F:
        for _, i, body in re.findall(r"(?:^|\n)( *)(?:'\w+: )?for (\w+) in [^\n]*\.\.[^\n]*\{\n(.*?)\n\1\}", b, re.S):
            arrays = re.findall(rf'([\w.]+)\[{i}\]', body)
            if arrays and len(re.findall(rf'\b{i}\b', body)) == len(arrays) and (len(set(arrays)) == 1) == (what == 'one'):
                print(f'{w}: {n}, of {" ".join(sorted(set(arrays)))}')
if what == 'facts':  # facts that three or more functions ask for
    d = {}
    for w, n, a, r, b in F:
        for x in {f'{x} {o} {y}' for x, o, y in re.findall(r'(?<![\w.])(?:\w+\.)*(\w+) ([≤<]) (\d+|known)(?!\w)', r)} \
                | set(re.findall(r'(?<![\w.])([A-Z]\w+) (?=[\w(])', r)):
            d.setdefault(x, []).append(w)
    report(d, 3)
if what == 'groups':  # two parameters that five or more functions have, and at least half of those that have the rarer of the two
    d, one = {}, {}
    for w, n, a, r, b in F:
        p = sorted({f'{x}: {t}' for x, t in a})
        for c in p:
            one[c] = one.get(c, 0) + 1
        for c in itertools.combinations(p, 2):
            d.setdefault(c, []).append(w)
    report({' + '.join(c): v for c, v in d.items() if 2 * len(v) >= min(one[x] for x in c)}, 5)
if what == 'counted':  # functions that take an array or a slice, and how much of it counts
    for w, n, a, r, b in F:
        k = [x for x, t in a if t == 'usize' and x in ('n', 'm', 'count', 'length', 'seats', 'windows')]
        s = [x for x, t in a if ('[' in t or t.strip('&') in ('Caps', 'Grid', 'Sheet')) and x not in ('out', 'name', 'label')]
        if k and s:
            print(f'{w}: {n}, {" ".join(s)} with {" ".join(k)}')
if what == 'structs':  # structs with arrays of one length, or with an array and its count; types with named rows
    for f, text in T.items():
        for m in re.finditer(r'struct (\w+) \{\n(.*?)\n\}', text, re.S):
            fields = re.findall(r'(\w+): ([^\n]*),', m[2])
            long = [t.split('; ')[-1].rstrip(']') for _, t in fields if t.startswith('[')]
            twice = sorted({n for n in long if long.count(n) > 1})
            counts = [n for n, t in fields if long and t == 'usize' and n in ('count', 'seats', 'windows')]
            if twice or counts:
                print(f'{f}:{text[:m.start()].count(chr(10)) + 1}: {m[1]}', *[f'arrays of {n}' for n in twice], *counts)
        for m in re.finditer(r'type (\w+) = \[.*; [A-Z\d]+\];', text):
            if re.search(r'\[[A-Z]{4,}\]', text):
                print(f'{f}:{text[:m.start()].count(chr(10)) + 1}: {m[1]}, rows by name')
if what == 'switches':  # functions that take an enum by which one of them calls this function or that
    kinds = {n for t in T.values() for n in re.findall(r'enum (\w+) \{(?:\n    \w+,)+\n\}', t)}
    steps = {t for w, n, a, r, b in F for x, t in a if t in kinds and re.search(rf'match {x} \{{[^}}]*=> [\w:]+\(', b)}
    for w, n, a, r, b in F:
        for x, t in a:
            if t in steps:
                print(f'{w}: {n} by {x}: {t}')
EOF
}

titles='1a own enums shaped like Option or Result
1b if let on an own enum
1c match on an own enum of that shape
1d flags that say whether something is there
1e a check or a kind with a value beside it
1f numbers for refusals, marks, kinds and files: declared
1g numbers for refusals, marks, kinds and files: written out
1h compared with 0 or 12 for nothing
1i said to be 0 or 12 where there is nothing
2a functions of the same shape as one before
2b functions nearly of the shape of one before
3a while loops with a counter
3b for loops whose number only indexes one array
3c loops over the members of a set, or with turns that are counted down
3d min, saturating_sub and get by hand
3e for loops whose number only indexes several arrays: these may stand
4a equality and order by hand
4b one-line conversions of numbers and flags
4c conversions of types by hand
4d values of nothing by hand
4e printing by hand
4f numbers put together of bytes, and taken apart
5a facts that three or more functions ask for, in each of them
5b parameters that travel together, by pair and function
6a structs of parallel arrays, or of an array and its count; rows by name
6b rows picked by name
6c functions that take an array and how much of it counts
6d fronts of buffers by a length beside them
6e functions that take a buffer and an offset into it
7a enums that say which step to run
7b flags that say which step to run
7c numbers that say which step to run
8a answers
8b lines of answers
8c lines of invariants
8d lines of lemmas
8e functions with answers
9a locals that copy a field
9b locals that are only assigned on'

places() { case $1 in
1a) src | grep -E ':    (Refused \{.*\}|Nothing|Nobody|Nowhere|None),$' ;;
1b) src | grep -E 'if let [A-Z][A-Za-z]*::' ;;
1c) src | grep -E ': +[A-Z][A-Za-z]*::(Refused|Nobody|None)\b.*(=>|\{$)' ;;
1d) src | grep -E '\b(has_[a-z]+|there|found|taken|begun|several): (bool|u32)\b' ;;
1e) src | grep -E ': +(pub )?(check: Check|kind: Kind),' ;;
1f) src | grep -E '\b(number|refusal|mark|kind|file): (u8|u16|u32|usize)\b' ;;
1g) src | grep -E '\b(number|refusal|mark|kind|file)(:| [!=]=) [0-9]+\b|\b(first_of|of_mark|told|refusal)\(([0-9]+,|$)'
    src | grep -E '\b(entry_of|entry_in|wrong_body|in_one_only|same_in_force|gives)\(([a-z]+, )+[0-9]+' ;;
1h) src | grep -E '\b(group|alone|seat|window|first|last|at|entry_in\(.*\)|idle_[a-z]+\(.*\)) [!=]= 0\b|amiss\(.*== 12|\bk < 12 \{$' ;;
1i) grep -nE '^ *//.*\b(0|12) (where|past) |^ *//.*\bboth (are )?0' crates/*/src/*.rt ;;
2a) look same ;;
2b) look near ;;
3a) src | grep -E '\bwhile [^!=]*(<|>)' ;;
3b) look one ;;
3c) src | grep -E '\bwhile .*(!= 0|!has)|for _ in 0\.\.[0-9]+u32' ;;
3d) src | grep -E 'if (\w+) < (\w+) \{ \1( as u16)? \} else \{ \2 \}|\{ \w+ - \w+ \} else \{ 0 \}|if .* \{ .*\[\w+\]\)? \} else \{ 0 \}' ;;
3e) look several ;;
4a) src | grep -E '\bfn (same(_[a-z]+)?|is_higher|is_below|reads_higher|higher|above|precedes|breaks_tie)\(' ;;
4b) src | grep -E ':    [a-z]+ as (u8|u16|u32|u64|usize)$|\bfn (flag|one_if|size_if)\(' ;;
4c) src | grep -E '\bfn (of|numbers|day|to_grid|from_grid|checked|replied|marked|told|small_of|cells_of)\('
    src | grep -E '\bfn (book_of\(s|grid_of\(cells|sheet_of\(day|of_mark\(mark)' ;;
4d) src | grep -E '\bfn (zero\(\)|no_[a-z]+\(\)|turned_away\(|refusal\(|taken\()' ;;
4e) src | grep -E '\bfn (say_(number|byte|hex|named|each|count|refusal|reply|marking|choice|sheet|row)|put_(decimal|digits|four))\b'
    src | grep -E '\bfn put_refusal\(|DIGITS: ' ;;
4f) src | grep -E '\b(256|65536|16777216) \* |[%/] (256|65536)[ )]' | grep -v 'ensures\|% n' ;;
5a) look facts ;;
5b) look groups ;;
6a) look structs ;;
6b) src | grep -E '\b[a-z]+\[[A-Z]{4,}\]' ;;
6c) look counted ;;
6d) src | grep -E '\bfront\(' ;;
6e) src | grep -E '\b(out|buf|array|file|row): &mut \[u(8|16)\], at: usize|:    at: usize,$' ;;
7a) look switches ;;
7b) src | grep -E '\b(rising|below|just|gaps|on|short|every|written|sheet|first): bool\b' ;;
7c) src | grep -E '\bmatch (way|size|word|mark|windows|seats) \{' ;;
8a) grep -rnE '^[a-z].* : goal\.' crates/*/proofs --include=Answers.antt ;;
8b) find crates/*/proofs -name Answers.antt -exec awk '{ print FILENAME ":" FNR }' {} + ;;
8c) find crates/*/proofs -name Invariants.antt -exec awk '{ print FILENAME ":" FNR }' {} + ;;
8d) find crates/*/proofs -name '*.antt' ! -name Answers.antt ! -name Invariants.antt -exec awk '{ print FILENAME ":" FNR }' {} + ;;
8e) find crates/*/proofs -name Answers.antt ;;
9a) src | grep -E ': +let [a-z_]+ = [a-z]+(\.[a-z_]+)+;$' ;;
9b) src | awk '{ c = $0; sub(/^[^:]+:[0-9]+:/, "", c); if (p != "" && c ~ "^ +[a-z_.]+(\\[[a-z]+\\])? = " p ";$") print;
      p = ""; if (c ~ /^ +let [a-z_]+ = /) { split(c, a, " "); p = a[2] } }' ;;
*) echo "no command $1" >&2 ;;
esac }

ids=$(echo "$titles" | cut -d' ' -f1)
case ${1-} in
'') echo "$titles" | while read -r i title; do
      places "$i" </dev/null | awk -v i="$i" -v t="$title" -F/ '{ if ($2 ~ /^(say|oracle|draws|vectors|trials)$/) k++ }
        END { printf "%s %5d %5d  %s\n", i, NR, k, t }'
    done ;;
crates) for i in $ids; do places "$i" | sed -E "s,^crates/([^/]*)/.*,\1 $i,"; done | sort | uniq -c |
      awk '{ t[$2] = t[$2] " " $3 ":" $1 } END { for (c in t) print c t[c] }' | sort ;;
*) places "$1" ;;
esac
