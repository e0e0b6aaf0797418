#!/bin/sh
# Runs files that are as deep as they are long, or nested as far as a file may be, and folders that are long for names, under
# a stack of 1 MiB, and prints for each form the processor seconds for so many bytes and for twice as many: a form costs about what its size costs, and no call is
# as deep as a file is long. A line ends in 'ENDED BY SIGNAL' where a program was, and the script's status is then 1.
# It installs nothing.
# usage: bench/hostile.sh [BYTES [ARGOT_SHOW [ARGOT_NAMES_SHOW]]]
#        (4 MiB and the built programs where they aren't named; one that isn't built is passed over)
set -eu
here=$(cd "$(dirname "$0")" && pwd)
bytes=${1:-4194304}
show=${2:-$here/../crates/argot_show/out/argot_show}
names=${3:-$here/../crates/argot_names_show/out/argot_names_show}
folder=$(mktemp -d)
trap 'rm -rf "$folder"' EXIT
python3 - "$folder" "$bytes" "$show" "$names" <<'PYTHON'
import os, resource, subprocess, sys

folder, size, show, names = sys.argv[1], int(sys.argv[2]), sys.argv[3], sys.argv[4]

# a file of about so many bytes: what stands before, one link again and again, what stands behind
def chain(before, link, behind):
    return lambda n: before + link * ((n - len(before) - len(behind)) // len(link)) + behind

# the same inside `func main() { .. }`
def inside(before, link, behind):
    return chain("package main\n\nfunc main() {\n\t" + before, link, behind + "\n}\n")

def value(before, link, behind):
    return chain("package main\n\nvar x = " + before, link, behind + "\n")

# nested as deep as a file may be, again and again
def nested(open_, inner, close, depth):
    one = "var _ = " + open_ * depth + inner + close * depth + "\n"
    return chain("package main\n\n", one, "")

def operators():
    opened = "".join("-" * (199 - depth) + "(" for depth in range(199))
    return chain("package main\n\n", "var _ = " + opened + "1" + ")" * 199 + "\n", "")

def variable(link):
    return chain("package main\n\nvar x ", link, "int\n")

forms = [
    ("types: func()", variable("func()")),
    ("types: func(int)", variable("func(int)")),
    ("types: []func()", variable("[]func()")),
    ("types: *func()", variable("*func()")),
    ("types: chan func()", variable("chan func()")),
    ("types: [f()]", variable("[f()]")),
    ("types: [T{}]", variable("[T{}]")),
    ("types: map[(a)]", variable("map[(a)]")),
    ("types: results of methods", chain("package main\n\ntype t interface{ m()", "func()", "int }\n")),
    ("types: conversions", value("", "[]func()", "int(1)")),
    ("operators: a/a", value("a", "/a", "")),
    ("operators: a||a", value("a", "||a", "")),
    ("operators: a+a*a", value("a", ",\ta+a*a", "")),
    ("operators before one", operators()),
    ("calls: f()()", value("f", "()", "")),
    ("calls: f(1)(1)", value("f", "(1)", "")),
    ("selectors: x.f.f", value("x", ".f", "")),
    ("assertions: x.(T).(T)", value("x", ".(T)", "")),
    ("indexes: x[f(i)]", value("x", "[f(i)]", "")),
    ("labels", inside("", "L:\n", "return")),
    ("else if", inside("if a {\n\t}", " else if a {\n\t}", "")),
    ("else if with :=", inside("if a := 1; a > 1 {\n\t}", " else if b := a; b > 1 {\n\t}", "")),
    ("literals in literals", nested("T{", "1", "}", 199)),
    ("calls in calls", nested("f(", "1", ")", 199)),
    ("literals of functions", nested("f(func() {\n", "", "})", 99)),
    ("names with commas", chain("package main\n\nvar a", ", a", " int\n")),
    ("values with commas", value("1", ", 1", "")),
    ("parameters", chain("package main\n\nfunc f(a", ", a", " int)\n")),
    ("statements", inside("", "a()\n", "")),
    ("not closed: f(", value("", "f(", "")),
    ("not closed: T{", value("", "T{", "")),
]

# folders that are long for names: a name that a list has again and again, and is used as often; types each made from the
# next; packages in a chain, of which the last imports the one before it
def of_main(text):
    return "example.org/app\n-- main.go --\npackage main\n\n" + text

def parameters(n):
    count = n // 10
    return of_main("func f(" + ", ".join(["a"] * count) + " int) {\n" + "\t_ = a\n" * count + "}\n")

def types(n):
    count = n // 34
    return of_main("".join("type t%06d struct{ next t%06d }\n" % (at, at + 1) for at in range(count)) + "type t%06d int\n" % count)

def packages(n):
    count = n // 70
    files = [("go.mod", "module example.org/app\n")]
    files.append(("main.go", "package main\n\nimport _ \"example.org/app/p000000\"\n\nfunc main() {}\n"))
    for at in range(count):
        next_ = at + 1 if at + 1 < count else at - 1
        files.append(("p%06d/a.go" % at, "package p\n\nimport _ \"example.org/app/p%06d\"\n" % next_))
    return "\n".join(["example.org/app"] + ["-- %s --\n%s" % file for file in files])

folders = [
    ("names: parameters of one name", parameters),
    ("names: types from the next one", types),
    ("names: a chain of packages with a cycle at its end", packages),
]

def limited():
    resource.setrlimit(resource.RLIMIT_STACK, (1 << 20, resource.RLIM_INFINITY))

def run(program, words, where):
    before = resource.getrusage(resource.RUSAGE_CHILDREN)
    ended = subprocess.run([program] + words, cwd=where, stdout=subprocess.DEVNULL, stderr=subprocess.DEVNULL, preexec_fn=limited)
    after = resource.getrusage(resource.RUSAGE_CHILDREN)
    return ended.returncode, after.ru_utime + after.ru_stime - before.ru_utime - before.ru_stime

def timed(program, words, where, file, make):
    if not os.access(program, os.X_OK):
        return "-", False
    told, killed = [], False
    for n in (size, 2 * size):
        with open(folder + "/" + file, "w") as to:
            to.write(make(n))
        status, seconds = run(program, words, where)
        killed |= status < 0
        told.append("%.2f" % seconds if status >= 0 else "ENDED BY SIGNAL %d" % -status)
    return " ".join(told), killed

print("form: seconds for %d and for %d bytes: the tree; names (and the tree)" % (size, 2 * size))
bad = False
for form, make in forms:
    tree, first = timed(show, ["tree", "-count", "main.go"], folder, "main.go", make)
    resolved, second = timed(names, ["-count"], folder, "folder.txt", lambda n: "example.org/app\n-- main.go --\n" + make(n))
    bad |= first or second
    print("%s: %s; %s" % (form, tree, resolved), flush=True)
for form, make in folders:
    resolved, killed = timed(names, ["-count"], folder, "folder.txt", make)
    bad |= killed
    print("%s: -; %s" % (form, resolved), flush=True)
sys.exit(1 if bad else 0)
PYTHON
