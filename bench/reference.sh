#!/bin/sh
# Compares what stages find in programs of plain code with what the reference program says of the same folders: references of
# points-to with targets, which sites escape, and which reads may come after which writes. The folders are the cases of lowering and programs made from seeds; each is
# written down as plain code by the tools beside the reference program. It prints how many agree, and each that doesn't.
# usage: bench/reference.sh SHARED [ARGOT_PLAIN_SHOW [COUNT]]
#        (SHARED has oracle/ and tools/; crates/argot_plain_show/out/argot_plain_show and 100 programs where nothing else is named)
set -eu
here=$(cd "$(dirname "$0")" && pwd)
[ $# -ge 1 ] || { sed -n 's/^# usage: //p' "$0"; exit 2; }
python3 - "$1" "${2:-$here/../crates/argot_plain_show/out/argot_plain_show}" "${3:-100}" <<'PYTHON'
import contextlib, glob, io, json, os, re, subprocess, sys, tempfile

shared, show, count = os.path.abspath(sys.argv[1]), os.path.abspath(sys.argv[2]), int(sys.argv[3])
sys.path.insert(0, os.path.join(shared, 'oracle'))
sys.setrecursionlimit(10 ** 6)
from argot_oracle import dump
from argot_oracle.facts import Facts
from argot_oracle.front import FrontFault, front, read_dir
from argot_oracle.gen import CONFIG, generate

# what writes a program down as plain code stands with the cases of lowering
words = os.path.join(shared, 'design', 'lowering-cases', 'regenerate')
notation = {'__file__': words, '__name__': 'notation'}
text = open(words, encoding='utf-8').read()
exec(compile(text[:text.index('def one(name)')].replace('sys.argv[1:]', '[]'), words, 'exec'), notation)
entries = tuple((e['package'], e.get('receiver', ''), e['name'], e.get('flow', True)) for e in json.loads(CONFIG)['externals'])

STEPS = [(r'^\.(\d+)', 'f%s'), (r'^\[\]', 'e'), (r'^\{k\}', 'k'), (r'^\{v\}', 'v'), (r'^<>', 'c'), (r'^#(\d+)', 'x%s')]

def path_of(text):
    """A path of the reference program's dumps as plain texts have it."""
    steps = []
    while text:
        for pattern, step in STEPS:
            m = re.match(pattern, text)
            if m:
                steps.append(step % m.groups() if '%' in step else step)
                text = text[m.end():]
                break
        else:
            raise ValueError(text)
    return '.'.join(steps) or '-'

def said(program):
    """What the reference program says of a program: lines of references and targets, and lines of escaping sites."""
    told = io.StringIO()
    with contextlib.redirect_stdout(told):
        dump.show(program, [], {'code', 'points'})
    points, sites = set(), set()
    for line in told.getvalue().split('\n'):
        m = re.match(r'refers node \d+ \((\d+), (\d+), (\d+)\) \S* ?-> site (\d+) ?(.*)$', line)
        if m:
            points.add('node %s %s %s refers to site %s %s' % (*m.groups()[:4], path_of(m.group(5))))
        m = re.match(r'refers site (\d+) (.*?) ?-> site (\d+) ?(.*)$', line)
        if m:
            points.add('site %s %s refers to site %s %s' % (m.group(1), path_of(m.group(2)), m.group(3), path_of(m.group(4))))
        m = re.match(r'target (\d+) f(\d+)', line)
        if m:
            points.add('target %s %s' % m.groups())
        m = re.match(r'function (\d+) .* live True$', line)
        if m:
            points.add('live ' + m.group(1))
        m = re.match(r'\s*site (\d+) .* escapes$', line)
        if m:
            sites.add('escapes ' + m.group(1))
    return points, sites

def control_said(program):
    """Which reads may come after which writes, by the reference program."""
    facts = Facts(program).solve()
    writers, readers = set(), set()
    for h, function in enumerate(facts.program.functions):
        for place in range(function.entry, function.leave + 1):
            kind = facts.program.instrs[place].kind
            name = type(kind).__name__
            if name in ('Write', 'Grow'):
                writers.add(place)
            arguments = len(getattr(kind, 'args', ())) + (type(getattr(kind, 'callee', None)).__name__ == 'Method')
            if name in ('Read', 'Grow') or (name in ('Call', 'Go') and arguments):
                readers.add(place)
            if name == 'Defer':
                readers.add(function.exit)
    return {'%d %d' % (a, b) for a in writers for b in readers if facts.control.follows(a, b)}

def found(command, file):
    """What argot finds: the lines that aren't about the command or a count."""
    r = subprocess.run([show, command, file], capture_output=True, text=True)
    return {l for l in r.stdout.split('\n') if re.match(r'(node|site|target|live|escapes) |\d+ \d+$', l)}, r.stdout

cases = sorted(d for d in glob.glob(os.path.join(shared, 'design', 'lowering-cases', '*')) if os.path.isdir(d))
programs = agree = differ = 0
with tempfile.TemporaryDirectory() as top:
    for seed in range(1, count + 1):
        os.mkdir(os.path.join(top, str(seed)))
        open(os.path.join(top, str(seed), 'main.go'), 'w').write(generate(seed))
        cases.append(os.path.join(top, str(seed)))
    for folder in cases:
        files = {k: v for k, v in read_dir(folder).items() if k.endswith('.go') or k.endswith('go.mod')}
        try:
            program = front(files, entries, '', 'R15')
        except FrontFault:
            continue
        file = os.path.join(top, 'program.txt')
        lines = notation['program_text'](program).split('\n')
        open(file, 'w').write('\n'.join(l for l in lines if not l.strip().startswith('#')))
        points, sites = said(program)
        programs += 1
        for command, want in [('references', points), ('escapes', sites), ('control', control_said(program))]:
            got, whole = found(command, file)
            if got == want:
                agree += 1
                continue
            differ += 1
            print('%s of %s: %d lines too many, %d missing' % (command, folder, len(got - want), len(want - got)))
            for line in sorted(got ^ want)[:5]:
                print('    %s %s' % ('found' if line in got else 'said', line))
print('%d programs: %d agree, %d differ' % (programs, agree, differ))
sys.exit(differ > 0)
PYTHON
