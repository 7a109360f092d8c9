// A formula as the baseline keeps it: clauses in slots, in the order of document 01's list, and beside them what lets the next
// step be found without looking at everything again: occurrence lists, a set of the clauses by their literals, and marks on the
// clauses and variables for which an earlier answer may no longer hold.
#pragma once
#include <algorithm>
#include <bit>
#include <cstddef>
#include <cstdint>
#include <unordered_set>
#include <utility>
#include <vector>

using Lit = std::uint16_t;  // 2v plain, 2v+1 negated; in a prefix 2v existential, 2v+1 universal
using Clause = std::vector<Lit>;

constexpr int maxVariables = 1023, maxClauses = 2047, maxLiterals = 8191, maxText = 65536;

inline int var(Lit l) { return l / 2; }
inline bool odd(Lit l) { return l & 1; }
inline Lit opposite(Lit l) { return l ^ 1; }

// 64-bit signature of a clause's variables: a clause whose variables are a part of another's has a part of its bits.
inline std::uint64_t signatureOf(const Clause& c) {
    std::uint64_t s = 0;
    for (Lit l : c) s |= std::uint64_t(1) << (var(l) & 63);
    return s;
}

struct ClauseHash {
    std::size_t operator()(const Clause& c) const {
        std::uint64_t h = c.size();
        for (Lit l : c) h = (h ^ l) * 0x9E3779B97F4A7C15u, h ^= h >> 29;
        return h;
    }
};

// A set of small numbers that gives the least one.
class Marks {
  public:
    void set(std::size_t i) {
        std::size_t w = i / 64;
        if (w >= words.size()) words.resize(w + 1);
        words[w] |= std::uint64_t(1) << (i % 64);
        from = std::min(from, w);
    }
    void clear(std::size_t i) {
        if (i / 64 < words.size()) words[i / 64] &= ~(std::uint64_t(1) << (i % 64));
    }
    int first() {  // -1 if there is none
        while (from < words.size() && words[from] == 0) from++;
        return from < words.size() ? int(64 * from) + std::countr_zero(words[from]) : -1;
    }

  private:
    std::vector<std::uint64_t> words;
    std::size_t from = 0;  // no number is below 64 * from
};

struct Slot {
    Clause lits;
    std::uint64_t signature = 0;
    bool live = false;  // else the clause is gone
};

// What resolving a variable does to the weight. It stays known until a clause that matters for it comes or goes.
struct Cost {
    bool known = false;
    bool exact = false;     // else the weight changes by at least `change`
    int reach = 0;          // the rightmost place of a variable in a clause with this one
    int change = 0;         // of the weight, by
    int clauses = 0;        // the change of these
    int literals = 0;       // and these
};

class Formula {
  public:
    Formula() : present(0, SlotHash{&slots}, SlotSame{&slots}) {}
    Formula(const Formula&) = delete;

    // The prefix from left to right; a dropped variable leaves a 0. place[v] is where v stands, -1 if nowhere.
    std::vector<Lit> prefix;
    std::vector<int> place = std::vector<int>(maxVariables + 1, -1);
    int variables = 0, clauses = 0, literals = 0;
    bool emptyClause = false;

    std::vector<Slot> slots;
    std::vector<std::vector<int>> with = std::vector<std::vector<int>>(2 * maxVariables + 2);  // the slots with a literal, ascending
    Marks units;          // clauses of one literal
    Marks lone;           // places of variables of which a literal may be in no clause
    Marks subsumers;      // clauses that may be a part of another
    Marks strengtheners;  // clauses that may strengthen another
    Marks pairs;          // two-literal clauses with a later opposite, at least when they were marked
    std::vector<Cost> cost = std::vector<Cost>(maxVariables + 1);

    int weight() const { return variables + clauses + literals; }
    bool existential(int v) const { return !odd(prefix[place[v]]); }
    const Clause& clause(int s) const { return slots[s].lits; }

    void addVariable(Lit entry) {
        place[var(entry)] = int(prefix.size());
        lone.set(prefix.size());
        prefix.push_back(entry);
        variables++;
    }

    void dropVariable(int v) {
        prefix[place[v]] = 0;
        place[v] = -1;
        variables--;
    }

    // The universals that have no existential of the clause to their right leave it.
    void reduce(Clause& c) const {
        int reach = -1;
        for (Lit l : c)
            if (existential(var(l))) reach = std::max(reach, place[var(l)]);
        std::erase_if(c, [&](Lit l) { return place[var(l)] > reach; });
    }

    // Tidies a raw clause; false if it is dropped.
    bool tidy(Clause& c) const {
        std::sort(c.begin(), c.end());
        c.erase(std::unique(c.begin(), c.end()), c.end());
        for (std::size_t i = 1; i < c.size(); i++)
            if (c[i] == opposite(c[i - 1])) return false;
        reduce(c);
        return true;
    }

    // The slot of a clause with these literals, -1 if there is none.
    int find(const Clause& c) const {
        auto i = present.find(c);
        return i == present.end() ? -1 : *i;
    }

    Lit rarest(const Clause& c) const {
        return *std::min_element(c.begin(), c.end(), [&](Lit a, Lit b) { return with[a].size() < with[b].size(); });
    }

    // A tidied clause at the right end, unless an equal one is there.
    void append(Clause c) {
        if (find(c) >= 0) return;
        slots.emplace_back();
        enter(int(slots.size()) - 1, std::move(c));
    }

    // The clause is gone.
    void remove(int s) {
        Clause c = leave(s);
        for (Lit l : c) unlink(l, s);
        forget(c);
    }

    // The clause of a slot becomes another tidied one and keeps its place; of two equal clauses the left one stays.
    void replace(int s, Clause c) {
        remove(s);
        int t = find(c);
        if (t >= 0 && t < s) return;
        if (t >= 0) remove(t);
        enter(s, std::move(c));
    }

  private:
    struct SlotHash {
        using is_transparent = void;
        const std::vector<Slot>* slots;
        std::size_t operator()(int s) const { return ClauseHash()((*slots)[s].lits); }
        std::size_t operator()(const Clause& c) const { return ClauseHash()(c); }
    };
    struct SlotSame {
        using is_transparent = void;
        const std::vector<Slot>* slots;
        bool operator()(int s, int t) const { return s == t; }
        bool operator()(const Clause& c, int s) const { return c == (*slots)[s].lits; }
        bool operator()(int s, const Clause& c) const { return c == (*slots)[s].lits; }
    };
    std::unordered_set<int, SlotHash, SlotSame> present;

    void enter(int s, Clause c) {
        Slot& slot = slots[s];
        slot.lits = std::move(c);
        slot.signature = signatureOf(slot.lits);
        slot.live = true;
        present.insert(s);
        emptyClause |= slot.lits.empty();
        clauses++;
        literals += int(slot.lits.size());
        for (Lit l : slot.lits) link(l, s);
        forget(slot.lits);
        look(s);
    }

    Clause leave(int s) {
        present.erase(s);
        Clause c = std::move(slots[s].lits);
        slots[s] = Slot();
        clauses--;
        literals -= int(c.size());
        units.clear(s);
        subsumers.clear(s);
        strengtheners.clear(s);
        pairs.clear(s);
        return c;
    }

    void link(Lit l, int s) {
        std::vector<int>& list = with[l];
        if (list.empty() || list.back() < s) list.push_back(s);
        else list.insert(std::lower_bound(list.begin(), list.end(), s), s);
    }

    void unlink(Lit l, int s) {
        std::vector<int>& list = with[l];
        list.erase(std::lower_bound(list.begin(), list.end(), s));
        if (list.empty()) lone.set(place[var(l)]);
    }

    // A new clause can be found by each kind, and be found by others: those are marked.
    void look(int s) {
        const Clause& c = clause(s);
        if (c.size() == 1) units.set(s);
        if (c.size() == 2) {
            int t = find({opposite(c[0]), opposite(c[1])});
            if (t >= 0) pairs.set(std::min(s, t));
        }
        subsumers.set(s);
        strengtheners.set(s);
        if (reading) return;
        for (Lit l : c) {
            for (int t : with[l])
                if (mayBePart(t, s)) subsumers.set(t);
            for (int t : with[opposite(l)])
                if (mayBePart(t, s)) strengtheners.set(t);
        }
    }

    // The clause comes or goes. It changes the cost of its own variables, and of those with a resolvent equal to it: each such
    // variable is in a clause with any literal of this one.
    void forget(const Clause& c) {
        for (Lit l : c) cost[var(l)].known = false;
        if (reading || c.empty()) return;
        for (int t : with[rarest(c)])
            for (Lit l : clause(t)) cost[var(l)].known = false;
    }

  public:
    bool reading = true;  // while the clauses are read all of them are marked

    // As if nothing had been looked at before.
    void lookAfresh() {
        for (std::size_t i = 0; i < prefix.size(); i++)
            if (prefix[i] != 0) lone.set(i);
        for (std::size_t s = 0; s < slots.size(); s++) {
            if (!slots[s].live) continue;
            subsumers.set(s);
            strengtheners.set(s);
            if (clause(int(s)).size() == 2) pairs.set(s);
        }
        for (Cost& k : cost) k.known = false;
    }

    // A quick test that passes if the variables of clause a are among those of b.
    bool mayBePart(int a, int b) const {
        return (slots[a].signature & ~slots[b].signature) == 0 && slots[a].lits.size() <= slots[b].lits.size();
    }
};
