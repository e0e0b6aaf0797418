// Reaching definitions by bit vectors over basic blocks, iterated to the fixpoint: a peer for bench/ssa.sh.
// It reads function.txt, whose first line has the number of registers and each further one an instruction in numbers: `0 TO
// FROM..` an Op, `1 TARGET` a Goto, `2 TARGET..` a Branch, `3 TO FROM` a Move of the whole value, `4 CALLEE TO ARGUMENT..` a
// Call by value with a result and `5 CALLEE ARGUMENT..` one without. Its last line is that of `argot_plain_show definitions`.
#include <algorithm>
#include <cstdint>
#include <cstdio>
#include <fstream>
#include <sstream>
#include <string>
#include <vector>

using Words = std::vector<uint32_t>;

struct Instr {
    int code;
    Words defines, reads, targets;
};

static Instr instr_of(const Words& w) {
    Instr x{(int)w[0], {}, {}, {}};
    switch (w[0]) {
    case 0: x.defines = {w[1]}; x.reads.assign(w.begin() + 2, w.end()); break;
    case 1: x.targets = {w[1]}; break;
    case 2: x.targets.assign(w.begin() + 1, w.end()); break;
    case 3: x.defines = {w[1]}; x.reads = {w[2]}; break;
    case 4: x.defines = {w[2]}; x.reads.assign(w.begin() + 3, w.end()); x.reads.push_back(w[1]); break;
    case 5: x.reads.assign(w.begin() + 2, w.end()); x.reads.push_back(w[1]); break;
    }
    std::sort(x.reads.begin(), x.reads.end());
    x.reads.erase(std::unique(x.reads.begin(), x.reads.end()), x.reads.end());
    return x;
}

int main() {
    std::ifstream file("function.txt");
    std::string line;
    std::getline(file, line);
    uint32_t registers = std::stoul(line);
    std::vector<Instr> code{instr_of({1, 1})};
    while (std::getline(file, line)) {
        std::istringstream words(line);
        Words w;
        for (uint32_t x; words >> x;) w.push_back(x);
        code.push_back(instr_of(w));
    }
    code.push_back(Instr{6, {}, {}, {}});
    code.push_back(Instr{7, {}, {}, {}});
    uint32_t n = code.size();
    auto next = [&](uint32_t i) {
        Words s;
        if (code[i].code == 7) return s;
        if (code[i].code != 1 && code[i].code != 2) return Words{i + 1};
        for (auto t : code[i].targets)
            if (code[i].code == 2 || t != i) s.push_back(t);
        return s;
    };
    std::vector<char> begins(n + 1, 0);
    begins[0] = 1;
    for (uint32_t i = 0; i < n; i++)
        if (code[i].code == 1 || code[i].code == 2) {
            for (auto s : next(i)) begins[s] = 1;
            begins[i + 1] = 1;
        }
    Words block(n), start;
    for (uint32_t i = 0; i < n; i++) {
        if (begins[i]) start.push_back(i);
        block[i] = start.size() - 1;
    }
    size_t blocks = start.size();
    start.push_back(n);
    Words place;
    std::vector<Words> of(registers), at(n);
    for (uint32_t i = 0; i < n; i++)
        for (auto r : code[i].defines) {
            at[i].push_back(place.size());
            of[r].push_back(place.size());
            place.push_back(i);
        }
    size_t width = (place.size() + 63) / 64;
    std::vector<Words> before(blocks);
    for (size_t b = 0; b < blocks; b++)
        for (auto s : next(start[b + 1] - 1)) before[block[s]].push_back(b);
    std::vector<uint64_t> in(blocks * width), out(blocks * width), now(width);
    auto step = [&](uint32_t i) {
        for (size_t k = 0; k < code[i].defines.size(); k++) {
            for (auto d : of[code[i].defines[k]]) now[d / 64] &= ~(1ull << (d % 64));
            now[at[i][k] / 64] |= 1ull << (at[i][k] % 64);
        }
    };
    for (bool changed = true; changed;) {
        changed = false;
        for (size_t b = 0; b < blocks; b++) {
            uint64_t* here = &in[b * width];
            for (auto q : before[b])
                for (size_t w = 0; w < width; w++) here[w] |= out[q * width + w];
            std::copy(here, here + width, now.begin());
            for (uint32_t i = start[b]; i < start[b + 1]; i++) step(i);
            if (!std::equal(now.begin(), now.end(), &out[b * width])) {
                changed = true;
                std::copy(now.begin(), now.end(), &out[b * width]);
            }
        }
    }
    uint64_t count = 0, sum = 0;
    for (size_t b = 0; b < blocks; b++) {
        std::copy(&in[b * width], &in[b * width] + width, now.begin());
        for (uint32_t i = start[b]; i < start[b + 1]; i++) {
            for (auto r : code[i].reads)
                for (auto d : of[r])
                    if (now[d / 64] >> (d % 64) & 1) {
                        count++;
                        sum += place[d] * 1000003ull + i * 10007ull + r;
                    }
            step(i);
        }
    }
    printf("%llu found, sum %llu\n", (unsigned long long)count, (unsigned long long)sum);
}
