// The baseline: document 01's program in plain C++. It reads QDIMACS on standard input, runs with E = 0, limit and log of 8,192
// entries, and prints the outcome, the number of steps and the formula that is left. Nothing of it is proved.
// It looks for each step among all clauses, by occurrence lists, signatures and hash sets. With the argument `remember` it looks
// only at what may have changed since the step before: no longer plain, but the mark to aim at.
#include <cstdio>
#include <iterator>

#include "formula.h"
#include "text.h"

namespace {

constexpr int limit = 8192;

// Kinds 1 to 5: the candidate, or a = -1 ----------------------------------------------------------------------

struct Found {
    int a = -1, b = 0;
};

Found findUnit(Formula& f) { return {f.units.first()}; }

Found findPure(Formula& f) {
    for (int i; (i = f.lone.first()) >= 0; f.lone.clear(i)) {
        Lit l = 2 * var(f.prefix[i]);
        if (l != 0 && (f.with[l].empty() || f.with[l + 1].empty())) return {var(l)};
    }
    return {};
}

Found findSubsume(Formula& f) {
    for (int a; (a = f.subsumers.first()) >= 0; f.subsumers.clear(a)) {
        const Clause& c = f.clause(a);
        for (int b : f.with[f.rarest(c)]) {
            const Clause& d = f.clause(b);
            if (b != a && f.mayBePart(a, b) && std::includes(d.begin(), d.end(), c.begin(), c.end())) return {a, b};
        }
    }
    return {};
}

// Whether d has the opposite of l and all others of c. The opposite stands in d where l would.
bool strengthens(const Clause& c, Lit l, const Clause& d) {
    auto at = d.begin();
    for (Lit k : c) {
        Lit want = k == l ? opposite(l) : k;
        while (at != d.end() && *at < want) ++at;
        if (at == d.end() || *at != want) return false;
        ++at;
    }
    return true;
}

Found findStrengthen(Formula& f) {
    for (int a; (a = f.strengtheners.first()) >= 0; f.strengtheners.clear(a)) {
        const Clause& c = f.clause(a);
        Lit rare = f.rarest(c);
        Found least;
        for (Lit l : c) {
            if (!f.existential(var(l))) continue;
            bool useRare = l != rare && f.with[rare].size() < f.with[opposite(l)].size();
            for (int b : f.with[useRare ? rare : opposite(l)]) {
                if (least.a >= 0 && b >= least.b) break;
                if (f.mayBePart(a, b) && strengthens(c, l, f.clause(b))) {
                    least = {a, b};
                    break;
                }
            }
        }
        if (least.a >= 0) return least;
    }
    return {};
}

Found findEquality(Formula& f) {
    for (int a; (a = f.pairs.first()) >= 0; f.pairs.clear(a)) {
        const Clause& c = f.clause(a);
        int b = f.find({opposite(c[0]), opposite(c[1])});
        if (b > a) return {a, b};
    }
    return {};
}

// Kinds 6 and 7: the variable with the least resulting weight, then the leftmost ------------------------------

struct Lightest {
    int variable = 0;  // 0: none counts
    int change = 0;    // a candidate changes the weight by less than this
    bool blocked = false;  // one failed only for room

    void offer(const Formula& f, int v, int newVariables, int newClauses, int newLiterals) {
        bool fits = f.variables + newVariables <= maxVariables && f.clauses + newClauses <= maxClauses &&
                    f.literals + newLiterals <= maxLiterals;
        if (!fits) {
            blocked = true;
            return;
        }
        variable = v;
        change = newVariables + newClauses + newLiterals;
    }
};

// The resolvent of two clauses on a variable; false if it has both phases of another.
bool resolvent(const Formula& f, const Clause& c, const Clause& d, int x, Clause& out) {
    out.clear();
    auto i = c.begin(), j = d.begin();
    while (i != c.end() || j != d.end()) {
        Lit l;
        if (j == d.end() || (i != c.end() && *i < *j)) l = *i++;
        else if (i == c.end() || *j < *i) l = *j++;
        else l = *i++, ++j;
        if (var(l) == x) continue;
        if (!out.empty() && out.back() == opposite(l)) return false;
        out.push_back(l);
    }
    f.reduce(out);
    return true;
}

Cost startCost(const Formula& f, int x) {
    Cost k;
    k.known = true;
    for (Lit l : {Lit(2 * x), Lit(2 * x + 1)})
        for (int s : f.with[l]) {
            k.clauses--;
            k.literals -= int(f.clause(s).size());
            for (Lit m : f.clause(s)) k.reach = std::max(k.reach, f.place[var(m)]);
        }
    k.change = -1 + k.clauses + k.literals;
    return k;
}

// Works out the cost, up to where the weight changes by no less than `below`.
void weighResolve(const Formula& f, int x, int below, Cost& k) {
    static std::unordered_set<Clause, ClauseHash> made;
    static Clause r;
    Cost start = startCost(f, x);
    k = start;
    made.clear();
    for (int s : f.with[2 * x])
        for (int t : f.with[2 * x + 1]) {
            if (!resolvent(f, f.clause(s), f.clause(t), x, r) || f.find(r) >= 0 || !made.insert(r).second) continue;
            k.clauses++;
            k.literals += int(r.size());
            k.change = -1 + k.clauses + k.literals;
            if (k.change >= below) return;
        }
    k.exact = true;
}

Lightest lightestResolve(Formula& f) {
    static std::vector<int> wall;  // for each place the first universal to its right
    wall.assign(f.prefix.size(), int(f.prefix.size()));
    for (int i = int(f.prefix.size()) - 2; i >= 0; i--) wall[i] = odd(f.prefix[i + 1]) ? i + 1 : wall[i + 1];
    Lightest best;
    for (std::size_t i = 0; i < f.prefix.size(); i++) {
        if (f.prefix[i] == 0 || odd(f.prefix[i])) continue;
        int x = var(f.prefix[i]);
        Cost& k = f.cost[x];
        if (!k.known) k = startCost(f, x);
        if (k.reach >= wall[i] || k.change >= best.change) continue;
        if (!k.exact) weighResolve(f, x, best.change, k);
        if (k.exact && k.change < best.change) best.offer(f, x, -1, k.clauses, k.literals);
    }
    return best;
}

// The existentials right of a variable, from left to right.
std::vector<Lit> innerOf(const Formula& f, int u) {
    std::vector<Lit> inner;
    for (std::size_t i = f.place[u] + 1; i < f.prefix.size(); i++)
        if (f.prefix[i] != 0 && !odd(f.prefix[i])) inner.push_back(f.prefix[i]);
    return inner;
}

// The clauses with one of these variables, in order.
std::vector<int> clausesOf(const Formula& f, const std::vector<Lit>& inner) {
    std::vector<int> slots;
    for (Lit q : inner)
        for (Lit l : {q, opposite(q)}) slots.insert(slots.end(), f.with[l].begin(), f.with[l].end());
    std::sort(slots.begin(), slots.end());
    slots.erase(std::unique(slots.begin(), slots.end()), slots.end());
    return slots;
}

// Only the universals of the last stretch can be expanded, and all of them have the same existentials and clauses to copy. A
// clause with u stays once, without u; the others stand twice. Kind 3 has no candidate, so no two results are equal.
Lightest lightestExpand(const Formula& f) {
    Lightest best;
    best.change = 1;  // the weight may stay
    int last = int(f.prefix.size()) - 1;
    while (last >= 0 && !odd(f.prefix[last])) last--;
    if (last < 0) return best;
    std::vector<Lit> inner = innerOf(f, var(f.prefix[last]));
    int clauses = 0, literals = 0;
    for (int s : clausesOf(f, inner)) clauses++, literals += int(f.clause(s).size());
    int first = last;
    while (first > 0 && (f.prefix[first - 1] == 0 || odd(f.prefix[first - 1]))) first--;
    for (int i = first; i <= last; i++) {
        if (f.prefix[i] == 0) continue;
        int u = var(f.prefix[i]), c = clauses, n = literals;
        for (Lit l : {Lit(2 * u), Lit(2 * u + 1)})
            for (int s : f.with[l]) c--, n -= int(f.clause(s).size()) + 1;
        int copies = int(inner.size());
        if (copies - 1 + c + n >= best.change) continue;
        if (f.variables + copies > maxVariables) best.blocked = true;  // a copy would be numbered over 1,023
        else best.offer(f, u, copies - 1, c, n);
    }
    return best;
}

// Steps -------------------------------------------------------------------------------------------------------

// A literal becomes true.
void assign(Formula& f, Lit l) {
    for (int s : std::vector<int>(f.with[l])) f.remove(s);
    for (int s : std::vector<int>(f.with[opposite(l)])) {
        Clause c = f.clause(s);
        std::erase(c, opposite(l));
        f.reduce(c);
        f.replace(s, std::move(c));
    }
    f.dropVariable(var(l));
}

void takePure(Formula& f, int v) {
    Lit l = f.with[2 * v].empty() ? 2 * v + 1 : 2 * v;
    assign(f, f.existential(v) ? l : opposite(l));
}

void takeStrengthen(Formula& f, int a, int b) {
    Clause d = f.clause(b);
    for (Lit l : f.clause(a))
        if (f.existential(var(l)) && strengthens(f.clause(a), l, d)) {
            std::erase(d, opposite(l));
            break;
        }
    f.reduce(d);
    f.replace(b, std::move(d));
}

// The clause (k l) and its opposite say that k equals the opposite of l. The one on the right is replaced.
void takeEquality(Formula& f, int a) {
    Lit k = f.clause(a)[0], l = f.clause(a)[1];
    if (f.place[var(k)] < f.place[var(l)]) std::swap(k, l);
    std::vector<int> slots;
    std::merge(f.with[k].begin(), f.with[k].end(), f.with[opposite(k)].begin(), f.with[opposite(k)].end(), std::back_inserter(slots));
    for (int s : slots) {
        Clause c = f.clause(s);
        for (Lit& m : c) m = m == k ? opposite(l) : m == opposite(k) ? l : m;
        if (f.tidy(c)) f.replace(s, std::move(c));
        else f.remove(s);
    }
    f.dropVariable(var(k));
}

void takeResolve(Formula& f, int x) {
    std::vector<Clause> made;
    Clause r;
    for (int s : f.with[2 * x])
        for (int t : f.with[2 * x + 1])
            if (resolvent(f, f.clause(s), f.clause(t), x, r)) made.push_back(r);
    for (Lit l : {Lit(2 * x), Lit(2 * x + 1)})
        for (int s : std::vector<int>(f.with[l])) f.remove(s);
    f.dropVariable(x);
    for (Clause& c : made) f.append(std::move(c));
}

void takeExpand(Formula& f, int u) {
    std::vector<Lit> inner = innerOf(f, u);
    std::vector<Clause> copied;
    for (int s : clausesOf(f, inner)) {
        copied.push_back(f.clause(s));
        f.remove(s);
    }
    std::vector<int> copyOf(maxVariables + 1, 0);
    int number = 0;
    std::vector<Lit> copies;
    for (Lit q : inner) {
        do number++;
        while (f.place[number] >= 0);
        copyOf[var(q)] = number;
        copies.push_back(2 * number);
    }
    f.dropVariable(u);
    for (Lit q : copies) f.addVariable(q);
    for (bool value : {false, true})
        for (const Clause& c : copied) {
            Lit isTrue = value ? 2 * u : 2 * u + 1;
            if (std::binary_search(c.begin(), c.end(), isTrue)) continue;
            Clause d = c;
            std::erase(d, opposite(isTrue));
            if (value)
                for (Lit& l : d)
                    if (copyOf[var(l)] != 0) l = 2 * copyOf[var(l)] + odd(l);
            f.tidy(d);
            f.append(std::move(d));
        }
}

// The run -----------------------------------------------------------------------------------------------------

enum class Taken { Step, NoCandidate, NoRoom };

// Takes the step that document 01 names; without `go` it only says whether there is one.
Taken step(Formula& f, bool go) {
    if (Found c = findUnit(f); c.a >= 0) {
        if (go) assign(f, f.clause(c.a)[0]);
    } else if (Found c = findPure(f); c.a >= 0) {
        if (go) takePure(f, c.a);
    } else if (Found c = findSubsume(f); c.a >= 0) {
        if (go) f.remove(c.b);
    } else if (Found c = findStrengthen(f); c.a >= 0) {
        if (go) takeStrengthen(f, c.a, c.b);
    } else if (Found c = findEquality(f); c.a >= 0) {
        if (go) takeEquality(f, c.a);
    } else if (Lightest r = lightestResolve(f); r.variable != 0) {
        if (go) takeResolve(f, r.variable);
    } else if (Lightest e = lightestExpand(f); e.variable != 0) {
        if (go) takeExpand(f, e.variable);
    } else {
        return r.blocked || e.blocked ? Taken::NoRoom : Taken::NoCandidate;
    }
    return Taken::Step;
}

const char* run(Formula& f, bool remember, int& steps) {
    for (steps = 0;; steps++) {
        if (!remember) f.lookAfresh();
        if (f.emptyClause) return "FALSE";
        if (f.clauses == 0) return "TRUE";
        Taken t = step(f, steps < limit);
        if (t == Taken::NoCandidate) return "FINISHED";
        if (t == Taken::NoRoom) return "OUT OF ROOM";
        if (steps == limit) return "STOPPED";
    }
}

}  // namespace

int main(int argc, char** argv) {
    std::string text(maxText + 1, '\0'), out;
    text.resize(std::fread(text.data(), 1, text.size(), stdin));
    bool remember = argc > 1 && std::string(argv[1]) == "remember";
    Formula f;
    Reader reader(text, f);
    if (Refusal r = reader.read()) {
        out = "r " + std::to_string(r) + " " + std::to_string(reader.offset) + "\n";
    } else {
        int steps;
        const char* outcome = run(f, remember, steps);
        out = std::string("c ") + outcome + " " + std::to_string(steps) + "\n";
        writeFormula(f, out);
    }
    std::fwrite(out.data(), 1, out.size(), stdout);
}
