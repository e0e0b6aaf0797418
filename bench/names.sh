#!/bin/sh
# Times the resolving of names beside parsing, on a generated folder of 8 MiB in 4,096 files of 64 packages: imports under names
# and without, methods, shadowed names, members of the library and of other packages. It prints what is found, the processor
# seconds (the least of five runs) and the greatest memory in MB of reading and parsing alone, and then with resolving. It
# installs nothing.
# usage: bench/names.sh [ARGOT_NAMES_SHOW [FILES]]
#        (the built program; crates/argot_names_show/out/argot_names_show where none is named)
set -eu
here=$(cd "$(dirname "$0")" && pwd)
show=${1:-$here/../crates/argot_names_show/out/argot_names_show}
files=${2:-4096}
folder=$(mktemp -d)
trap 'rm -rf "$folder"' EXIT

python3 -c '
import sys
packages, files = 64, int(sys.argv[2])
of_each, size = files // packages, 2048
out = [("go.mod", "module example.org/app\n")]
out.append(("main.go", "package main\n\nimport (\n" + "".join("\t\"example.org/app/p%02d\"\n" % k for k in range(packages)) + ")\n\nfunc main() {\n" + "".join("\tp%02d.F0_0(%d, \"x\")\n" % (k, k) for k in range(packages)) + "}\n"))
for k in range(packages):
    for n in range(of_each):
        other = (2 * k + 1 + n % 2)
        text = "package p%02d\n\nimport (\n\t\"fmt\"\n\t\"strings\"\n%s)\n\n" % (k, "\tnext \"example.org/app/p%02d\"\n" % other if other < packages else "")
        text += "type kind%d struct {\n\tname  string\n\tcount int\n\tnext  *kind%d\n}\n\nfunc (k *kind%d) add(more int) int {\n\tk.count += more\n\treturn k.count\n}\n\n" % (n, n, n)
        i = 0
        while len(text) < size - 300:
            call = "next.F%d_0(len(text), name)" % ((n * 7) % of_each) if other < packages else "F%d_0(len(text), name)" % ((n * 7) % of_each)
            text += "func F%d_%d(count int, name string) (total int, err error) {\n\titems := []int{1, %d, %d}\n\tfor index, value := range items {\n\t\tif value > count && index != len(name) {\n\t\t\ttotal += value * (index + count)\n\t\t\tcontinue\n\t\t}\n\t\ttext := strings.TrimSpace(fmt.Sprint(value, name))\n\t\tmore, err := %s\n\t\tif err != nil {\n\t\t\treturn total, err\n\t\t}\n\t\tmore, index := (&kind%d{name: text}).add(more), value\n\t\ttotal = total<<1 | more + index\n\t}\n\treturn total, nil\n}\n\n" % (n, i, i * 7, n, call, n)
            i += 1
        text += "// %s\n" % ("x" * max(0, size - 4 - len(text)))
        out.append(("p%02d/f%02d.go" % (k, n), text))
out.sort(key=lambda file: file[0].encode())
with open(sys.argv[1] + "/folder.txt", "w") as to:
    to.write("example.org/app")
    for path, text in out:
        to.write("\n-- %s --\n%s" % (path, text))
print("%d files, %d bytes" % (len(out), sum(len(text) for _, text in out)))' "$folder" "$files"

(cd "$folder" && python3 -c '
import resource, subprocess, sys
def used(word):
    before = resource.getrusage(resource.RUSAGE_CHILDREN)
    lines = subprocess.run([sys.argv[1], word], capture_output=True, text=True).stdout.splitlines()
    after = resource.getrusage(resource.RUSAGE_CHILDREN)
    return after.ru_utime + after.ru_stime - before.ru_utime - before.ru_stime, after.ru_maxrss // 1024, ", ".join(lines)
def timed(word):
    seconds, memory, told = min(used(word) for _ in range(5))
    print("%s: %.2f s, %d MB" % (told, seconds, memory))
    return seconds
parse, whole = timed("-parse"), timed("-count")
print("resolving takes %.2f times the time of reading and parsing" % ((whole - parse) / parse))' "$show")
