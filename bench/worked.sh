#!/bin/sh
# Shows for each rule of the machine's step, each row of the edges and each kind of instruction which worked program uses it,
# and fails where none does. The rules are read from the definitions, so a new one without a worked case is seen. A worked case
# counts where its proof names the rule, speaks of a worked program, and is what a contract of its crate stands on.
# usage: bench/worked.sh
set -eu
top=$(cd "$(dirname "$0")/.." && pwd)
cd "$top"
python3 - <<'PYTHON'
import glob, re, sys

def words_of(path, opening):
    """The constructors of the data type that a line begins."""
    found, inside = [], False
    for line in open(path):
        if line.startswith(opening):
            inside = True
        elif inside and re.match(r'\S', line) and not line.startswith('--'):
            break
        elif inside:
            name = re.match(r'\s+(\w+) :', line)
            if name and not line.lstrip().startswith('pub '):
                found.append(name.group(1))
    return found

def code_of(path):
    """What a proof builds: without imports, comments and what stands before an equation, where a rule is only taken apart."""
    lines = open(path).read().split('\n')
    return '\n'.join(l.split(' = ', 1)[-1] for l in lines if not l.startswith('use ') and not l.lstrip().startswith('--'))

def names_of(path, module):
    """How a proof writes the words of a module: those that it imports, and the module's other name."""
    text = open(path).read()
    group = re.search(r'^use Rattle\.%s\.\{(.*)\}$' % re.escape(module), text, re.M)
    alias = re.search(r'^use Rattle\.%s as (\w+)$' % re.escape(module), text, re.M)
    return [w.strip() for w in group.group(1).split(',')] if group else [], alias.group(1) if alias else None

def uses(path, code, module, name):
    group, alias = names_of(path, module)
    return (name in group and re.search(r'(?<![\w.])%s(?![\w])' % name, code)) or (alias and re.search(r'\b%s\.%s\b' % (alias, name), code))

def imports(path):
    return re.findall(r'^use Rattle\.(\w+)\.(specs|proofs)\.(\w+)', open(path).read(), re.M)

crates = sorted(glob.glob('crates/argot_plain_worked*'))
cases = []      # (crate, file, code, programs): proofs that speak of a program and that an answer stands on
programs = {}   # the text of each worked program
for crate in crates:
    name = crate.split('/')[1]
    for spec in glob.glob(crate + '/specs/*.antt'):
        text = open(spec).read()
        if re.search(r'^-- +\d+ +func main\(\)', text, re.M):
            programs[(name, spec.split('/')[-1][:-5])] = text
    waiting = glob.glob(crate + '/proofs/*/Answers.antt')
    reached = set(waiting)
    while waiting:
        for owner, kind, module in imports(waiting.pop()):
            path = crate + '/proofs/' + module + '.antt'
            if owner == name and kind == 'proofs' and path not in reached and glob.glob(path):
                reached.add(path)
                waiting.append(path)
    for path in sorted(reached):
        of = [m for o, k, m in imports(path) if k == 'specs' and (o, m) in programs]
        if of:
            cases.append((name, path, code_of(path), of))

missing = 0
def show(title, names, module):
    global missing
    print(title)
    for n in names:
        used = sorted({c + '/' + f.split('/')[-1][:-5] for c, f, code, of in cases if uses(f, code, module, n)})
        print('  %-22s %s' % (n, ', '.join(used) if used else 'NO WORKED CASE'))
        missing += not used

steps = words_of('crates/argot_plain/specs/Step.antt', '  data Acts') or words_of('crates/argot_plain/specs/Step.antt', 'pub data Acts') \
    or re.findall(r'^\s+(act_\w+) :', open('crates/argot_plain/specs/Step.antt').read(), re.M)
edges = words_of('crates/argot_facts/specs/Edges.antt', 'pub data MovesBy')
kinds = re.findall(r'^    ([A-Z]\w+)(?:,| \{)', open('crates/argot_plain/src/instructions.rt').read().split('pub enum Kind')[1].split('\n}\n')[0], re.M)
if len(steps) < 21 or len(edges) < 8 or len(kinds) < 19:
    sys.exit('worked.sh: %d rules, %d rows and %d kinds were read: fewer than there are' % (len(steps), len(edges), len(kinds)))
show('rules of the step', steps, 'argot_plain.specs.Step')
show('rows of the edges', edges, 'argot_facts.specs.Edges')
print('kinds of instruction')
for k in kinds:
    used = sorted({c + '/' + m for (c, m), text in programs.items() if re.search(r'\b(on|instr) [\w. ()]*\(?%s\b' % k, text)})
    print('  %-22s %s' % (k, ', '.join(used) if used else 'NO WORKED PROGRAM'))
    missing += not used
sys.exit(missing and 'worked.sh: %d without a worked case' % missing)
PYTHON
