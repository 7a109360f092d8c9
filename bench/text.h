// Reading and writing QDIMACS (document 01, "Reading and writing").
#pragma once
#include <string>
#include <string_view>

#include "formula.h"

enum Refusal { GOOD = 0, LENGTH = 1, SYNTAX = 3, SHORT = 4, RANGE = 5, TWICE = 6, UNBOUND = 7, COUNT = 8, TOO_BIG = 9 };

class Reader {
  public:
    Reader(std::string_view text, Formula& formula) : text(text), f(formula) {}

    // Reads the text into the empty formula; `offset` tells where a refusal is.
    Refusal read() {
        if (text.size() > maxText) return LENGTH;
        std::size_t at = 0;
        while (next(at)) {
            offset = at;
            std::size_t end = at;
            while (end < text.size() && !blank(text[end])) end++;
            if (phase == AtP && text[at] == 'c') {  // a comment
                while (end < text.size() && text[end] != '\n') end++;
            } else if (Refusal r = take(text.substr(at, end - at))) {
                return r;
            }
            at = end;
        }
        offset = text.size();
        f.reading = false;
        return phase == Full || (phase == Line && C == 0) ? GOOD : SHORT;
    }

    std::size_t offset = 0;

  private:
    enum Phase { AtP, AtCnf, AtM, AtC, Line, Open, Vars, InClause, Full };

    std::string_view text;
    Formula& f;
    Phase phase = AtP;
    int M = 0, C = 0, closed = 0;
    bool universal = false;
    Clause pending;

    static bool blank(char b) { return b == ' ' || b == '\t' || b == '\r' || b == '\n'; }

    bool next(std::size_t& at) const {
        while (at < text.size() && blank(text[at])) at++;
        return at < text.size();
    }

    // A numeral's value, cut off far above every limit; -1 if the token is none.
    static int numeral(std::string_view t) {
        if (t.empty() || (t.size() > 1 && t[0] == '0')) return -1;
        int n = 0;
        for (char b : t) {
            if (b < '0' || b > '9') return -1;
            n = std::min(10 * n + (b - '0'), 100000);
        }
        return n;
    }

    Refusal take(std::string_view t) {
        switch (phase) {
            case AtP:
                if (t != "p") return SYNTAX;
                phase = AtCnf;
                return GOOD;
            case AtCnf:
                if (t != "cnf") return SYNTAX;
                phase = AtM;
                return GOOD;
            case AtM:
                phase = AtC;
                return limit(t, maxVariables, M);
            case AtC:
                phase = Line;
                return limit(t, maxClauses, C);
            case Line:
                if (t == "e" || t == "a") {
                    universal = t == "a";
                    phase = Open;
                    return GOOD;
                }
                return C == 0 ? COUNT : literal(t);
            case Open:
            case Vars:
                return variable(t);
            case InClause:
                return literal(t);
            case Full:
                return COUNT;
        }
        return SYNTAX;
    }

    static Refusal limit(std::string_view t, int most, int& n) {
        n = numeral(t);
        return n < 0 ? SYNTAX : n > most ? TOO_BIG : GOOD;
    }

    Refusal variable(std::string_view t) {
        int v = numeral(t);
        if (v < 0) return SYNTAX;
        if (v == 0) {
            if (phase == Open) return RANGE;
            phase = Line;
            return GOOD;
        }
        if (v > M) return RANGE;
        if (f.place[v] >= 0) return TWICE;
        f.addVariable(Lit(2 * v + universal));
        phase = Vars;
        return GOOD;
    }

    Refusal literal(std::string_view t) {
        bool minus = t[0] == '-';
        int v = numeral(minus ? t.substr(1) : t);
        if (v < 0 || (minus && v == 0)) return SYNTAX;
        if (v == 0) return close();
        if (v > M) return RANGE;
        if (f.place[v] < 0) return UNBOUND;
        pending.push_back(Lit(2 * v + minus));
        phase = InClause;
        return GOOD;
    }

    Refusal close() {
        if (f.tidy(pending)) f.append(pending);
        pending.clear();
        if (f.literals > maxLiterals) return TOO_BIG;
        phase = ++closed == C ? Full : InClause;
        return GOOD;
    }
};

inline void writeFormula(const Formula& f, std::string& out) {
    int largest = 0;
    for (Lit q : f.prefix) largest = std::max(largest, var(q));
    out += "p cnf " + std::to_string(largest) + " " + std::to_string(f.clauses) + "\n";
    Lit before = 0;
    for (Lit q : f.prefix) {
        if (q == 0) continue;
        if (before == 0 || odd(before) != odd(q)) {
            if (before != 0) out += "0\n";
            out += odd(q) ? "a " : "e ";
        }
        out += std::to_string(var(q)) + " ";
        before = q;
    }
    if (before != 0) out += "0\n";
    for (const Slot& s : f.slots) {
        if (!s.live) continue;
        for (Lit l : s.lits) {
            if (odd(l)) out += '-';
            out += std::to_string(var(l)) + " ";
        }
        out += "0\n";
    }
}
