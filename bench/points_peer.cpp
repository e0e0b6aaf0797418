// A plain points-to analysis (after Andersen) beside which bench/points.sh times argot: a worklist that hands on what is new,
// with copy edges that are added as references are found. It reads program.txt, of which it knows the kinds that the bench
// writes alone (goto, branch, new, step, read, write, move, call by number or by method, rundefers, leave), with registers of
// one leaf and no captures, and prints the same counts and sum.
#include <cstdint>
#include <cstdio>
#include <deque>
#include <fstream>
#include <iostream>
#include <map>
#include <set>
#include <sstream>
#include <string>
#include <utility>
#include <vector>
using namespace std;
using Words = vector<string>;
struct Function { int entry, leave, params; };
struct Site { int place, type, first; vector<string> paths; };
struct Loc { int site; string path; };

static vector<Function> functions;
static vector<Words> code;
static vector<Site> sites;
static vector<Loc> locations;
static map<pair<int, string>, int> methods;
static vector<int> owner, base;
static vector<vector<pair<int, int>>> defined;   // of each place, its registers with their indices
static vector<int> node_place, node_index;

static vector<int> handed(const Words &w, int &results) {
    vector<int> values;
    size_t n = 1;
    while (w[n] != "=") n++;
    results = int(n) - 1;
    if (w[n + 1][0] == 'm') values.push_back(stoi(w[n + 1].substr(1)));
    for (size_t k = n + 2; k < w.size(); k++) values.push_back(stoi(w[k]));
    return values;
}
static string callee(const Words &w) { size_t n = 1; while (w[n] != "=") n++; return w[n + 1]; }
static string joined(const string &a, const string &b) { return a == "-" ? b : b == "-" ? a : a + "." + b; }

static void read() {
    ifstream in("program.txt");
    string line;
    while (getline(in, line)) {
        istringstream words(line);
        Words w;
        for (string word; words >> word;) w.push_back(word);
        if (w.empty() || w[0] == "file") continue;
        if (w[0] == "function") functions.push_back({stoi(w[2]), stoi(w[4]), stoi(w[5])});
        else if (w[0] == "site") {
            Site site{stoi(w[1]), stoi(w[5]), int(locations.size()), {"-"}};
            if (w[4] != "none" && w[4] != "-") {
                istringstream paths(w[4]);
                for (string path; getline(paths, path, ',');) site.paths.push_back(path);
            }
            for (auto &path : site.paths) locations.push_back({int(sites.size()), path});
            sites.push_back(site);
        } else if (w[0] == "method") methods[{stoi(w[1]), w[2]}] = stoi(w[3]);
        else code.push_back(w);
    }
}
static void number() {
    owner.resize(code.size()); base.resize(code.size()); defined.resize(code.size());
    for (size_t g = 0; g < functions.size(); g++)
        for (int i = functions[g].entry; i <= functions[g].leave; i++) {
            owner[i] = int(g); base[i] = int(node_place.size());
            const Words &w = code[i];
            int count = 0, results = 0;
            if (i == functions[g].entry) { count = functions[g].params; for (int k = 0; k < count; k++) defined[i].push_back({k, k}); }
            else if (w[0] == "call") { count = int(handed(w, results).size()) + results; for (int k = 0; k < results; k++) defined[i].push_back({stoi(w[1 + k]), k}); }
            else if (w[0] == "leave") count = int(w.size()) - 1;
            else if (w[0] == "write") count = 1;
            else if (w[0] != "goto" && w[0] != "branch" && w[0] != "rundefers") { count = 1; defined[i].push_back({stoi(w[1]), 0}); }
            for (int k = 0; k < count; k++) { node_place.push_back(i); node_index.push_back(k); }
        }
}
static vector<int> successors(int i) {
    const Words &w = code[i];
    vector<int> next;
    if (w[0] == "leave") return next;
    if (w[0] == "goto" || w[0] == "branch") for (size_t k = 1; k < w.size(); k++) next.push_back(stoi(w[k]));
    else next.push_back(i + 1);
    return next;
}
static vector<pair<int, int>> uses(int i) {      // registers that are read
    const Words &w = code[i];
    vector<pair<int, int>> found;
    int results;
    if (w[0] == "step" || w[0] == "read" || w[0] == "move") found.push_back({stoi(w[2]), 0});
    else if (w[0] == "write") { found.push_back({stoi(w[1]), 0}); found.push_back({stoi(w[2]), 0}); }
    else if (w[0] == "call") for (int r : handed(w, results)) found.push_back({r, 0});
    else if (w[0] == "leave") for (size_t k = 1; k < w.size(); k++) found.push_back({stoi(w[k]), 0});
    return found;
}
static vector<map<int, vector<int>>> reaching;   // of each place and register, the nodes that define it
static void reach() {
    reaching.resize(code.size());
    vector<int> seen(code.size(), -1);
    int mark = 0;
    for (size_t d = 0; d < code.size(); d++)
        for (auto [r, index] : defined[d]) {
            deque<int> queue;
            mark++;
            auto go = [&](int i) { if (seen[i] != mark) { seen[i] = mark; queue.push_back(i); } };
            for (int j : successors(int(d))) go(j);
            while (!queue.empty()) {
                int i = queue.front();
                queue.pop_front();
                for (auto [u, x] : uses(i)) if (u == r) { reaching[i][r].push_back(base[d] + index); break; }
                bool kills = false;
                for (auto [u, x] : defined[i]) if (u == r) kills = true;
                if (!kills) for (int j : successors(i)) go(j);
            }
        }
}

static size_t words_of_row;
static vector<vector<uint64_t>> all, fresh;      // nodes and then locations
static vector<vector<int>> copies;
static vector<set<int>> copied;
struct Use { int kind, other; string path; };    // 0 shift, 1 load, 2 store, 3 call
static vector<vector<Use>> uses_of;
static vector<bool> live, waits;
static deque<int> queue_;
static set<pair<int, int>> targets;
static int nodes;

static void put(int n) { if (!waits[n]) { waits[n] = true; queue_.push_back(n); } }
static void add(int n, int y) {
    uint64_t bit = uint64_t(1) << (y % 64);
    if (!(all[n][y / 64] & bit)) { all[n][y / 64] |= bit; fresh[n][y / 64] |= bit; put(n); }
}
static void hand(int from, int to, bool whole) {
    auto &source = whole ? all[from] : fresh[from];
    bool changed = false;
    for (size_t k = 0; k < words_of_row; k++) {
        uint64_t more = source[k] & ~all[to][k];
        if (more) { all[to][k] |= more; fresh[to][k] |= more; changed = true; }
    }
    if (changed) put(to);
}
static void edge(int from, int to) { if (copied[from].insert(to).second) { copies[from].push_back(to); hand(from, to, true); } }
static int moved(int y, const string &path) {
    static map<string, vector<int>> tables;      // by path, for each location the one that it becomes
    auto &table = tables[path];
    if (table.empty())
        for (auto &l : locations) {
            const Site &site = sites[l.site];
            string whole = joined(l.path, path);
            int z = -1;
            for (size_t k = 0; k < site.paths.size(); k++) if (site.paths[k] == whole) z = site.first + int(k);
            table.push_back(z);
        }
    return table[y];
}
static void enliven(int g);
static void aim(int i, int g) {
    if (!targets.insert({i, g}).second) return;
    int results;
    vector<int> values = handed(code[i], results);
    int first = callee(code[i])[0] == 'm' ? 1 : 0;   // the box goes to its own wrapper alone
    for (int k = first; k < int(values.size()) && k < functions[g].params; k++) edge(base[i] + results + k, base[functions[g].entry] + k);
    for (int k = 0; k < results && k < int(code[functions[g].leave].size()) - 1; k++) edge(base[functions[g].leave] + k, base[i] + k);
    enliven(g);
}
static void use(int n, Use u);
static void look(int n, const Use &u, int y) {
    if (u.kind == 3) {
        auto found = methods.find({sites[locations[y].site].type, u.path});
        if (found == methods.end()) return;
        aim(u.other, found->second);
        if (functions[found->second].params > 0) add(base[functions[found->second].entry], y);
        return;
    }
    int z = moved(y, u.path);
    if (z < 0) return;
    if (u.kind == 0) add(u.other, z);
    if (u.kind == 1) edge(nodes + z, u.other);
    if (u.kind == 2) edge(u.other, nodes + z);
}
static void use(int n, Use u) {
    uses_of[n].push_back(u);
    for (size_t k = 0; k < words_of_row; k++)
        for (uint64_t bits = all[n][k]; bits; bits &= bits - 1) look(n, u, int(64 * k) + __builtin_ctzll(bits));
}
static void enliven(int g) {
    if (live[g]) return;
    live[g] = true;
    for (int i = functions[g].entry + 1; i <= functions[g].leave; i++) {
        const Words &w = code[i];
        auto defs = [&](int r) { return reaching[i][r]; };
        if (w[0] == "new") add(base[i], sites[stoi(w[2])].first);
        else if (w[0] == "move") for (int d : defs(stoi(w[2]))) edge(d, base[i]);
        else if (w[0] == "step") for (int d : defs(stoi(w[2]))) use(d, {0, base[i], w[3]});
        else if (w[0] == "read") for (int d : defs(stoi(w[2]))) use(d, {1, base[i], w[3]});
        else if (w[0] == "write") {
            for (int d : defs(stoi(w[2]))) edge(d, base[i]);
            for (int d : defs(stoi(w[1]))) use(d, {2, base[i], "-"});
        } else if (w[0] == "leave") for (size_t k = 1; k < w.size(); k++) for (int d : defs(stoi(w[k]))) edge(d, base[i] + int(k) - 1);
        else if (w[0] == "call") {
            int results;
            vector<int> values = handed(w, results);
            for (size_t k = 0; k < values.size(); k++) for (int d : defs(values[k])) edge(d, base[i] + results + int(k));
            string c = callee(w);
            if (c[0] == 'f') aim(i, stoi(c.substr(1)));
            else use(base[i] + results, {3, i, c.substr(c.find(':') + 1)});
        }
    }
}

int main() {
    read(); number(); reach();
    nodes = int(node_place.size());
    size_t rows = nodes + locations.size();
    words_of_row = (locations.size() + 63) / 64;
    all.assign(rows, vector<uint64_t>(words_of_row)); fresh = all;
    copies.resize(rows); copied.resize(rows); uses_of.resize(rows); waits.resize(rows); live.resize(functions.size());
    enliven(0);
    while (!queue_.empty()) {
        int n = queue_.front();
        queue_.pop_front();
        waits[n] = false;
        vector<uint64_t> now = fresh[n];
        for (int to : copies[n]) hand(n, to, false);
        fill(fresh[n].begin(), fresh[n].end(), 0);
        for (size_t j = 0; j < uses_of[n].size(); j++)
            for (size_t k = 0; k < words_of_row; k++)
                for (uint64_t bits = now[k]; bits; bits &= bits - 1) { const Use u = uses_of[n][j]; look(n, u, int(64 * k) + __builtin_ctzll(bits)); }
    }
    auto of_location = [&](int y) { const string &p = locations[y].path; uint64_t steps = p == "-" ? 0 : 1; for (char c : p) steps += c == '.'; return uint64_t(locations[y].site) * 1000003 + steps; };
    uint64_t references = 0, sum = 0, alive = 0;
    for (size_t r = 0; r < rows; r++)
        for (size_t y = 0; y < locations.size(); y++)
            if (all[r][y / 64] >> (y % 64) & 1) {
                uint64_t spot = int(r) < nodes ? uint64_t(node_place[r]) * 10007 + uint64_t(node_index[r]) * 101 : of_location(int(r) - nodes) * 7;
                references++; sum += spot * 31 + of_location(int(y));
            }
    for (size_t g = 0; g < live.size(); g++) if (live[g]) { alive++; sum += g; }
    for (auto [i, g] : targets) sum += uint64_t(i) * 65537 + g;
    cout << references << " references, " << alive << " live, " << targets.size() << " targets, sum " << sum << "\n";
}
