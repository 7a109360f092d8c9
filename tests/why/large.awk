# Prints a large formula for the cases of the program why; `name` says which.
#   variables  expanding 831, with an allowance of 1000, would need a variable number over 1023
#   clauses    resolving 950 would leave 2048 clauses
#   literals   resolving 1023 would leave 8192 literals
#   stopped    one step of kinds 1 to 5 is still to be taken when the run stops after 8192 steps
#   own        none is, but resolving 1 is
#   long       a text of one byte more than there may be

# A line of a quantifier for the variables from one number to another.
function line(letter, from, to,    v, text) {
    text = letter
    for (v = from; v <= to; v++) text = text " " v
    return text " 0"
}

# Adds a clause for each of n places around a ring of variables, which begins after `base`: the variables at the distances in the
# words of `far` from the place, each with the sign there. A ring with enough of them in both phases gives a run nothing to do.
function ring(base, n, far,    i, j, k, d, text) {
    k = split(far, d, " ")
    for (i = 0; i < n; i++) {
        text = ""
        for (j = 1; j <= k; j++) text = text (d[j] ~ /^-/ ? "-" : "") base + 1 + (i + substr(d[j], 2)) % n " "
        add(text "0")
    }
}

function add(text) { clauses[++count] = text }

function finish(most, prefix,    i) {
    print "p cnf", most, count
    printf "%s", prefix
    for (i = 1; i <= count; i++) print clauses[i]
}

# Clauses (1 l) for each l of 2 to 101, and 77 with 1, a mark and the opposite of every l: 7700 strengthenings, and after those of an
# l it is pure. The variables over 178 stand in no clause: a step each, before all others. Then 1 and the marks are left.
function many_steps(variables,    l, mark, text, last) {
    for (l = 2; l <= 101; l++) add("1 " l " 0")
    for (mark = 102; mark <= 178; mark++) {
        text = "1 " mark " "
        for (l = 2; l <= 101; l++) text = text "-" l " "
        add(text "0")
        last = last "-" mark " "
    }
    add("-1 " last "0")
    finish(variables, line("e", 1, variables) "\n")
}

BEGIN {
    if (name == "variables") {
        ring(0, 830, "+0 +1 -3")
        ring(0, 830, "-0 -7 +19")
        ring(831, 97, "+0 +1 -3")
        for (i = 1; i <= 6; i++) clauses[1660 + i] = (i % 2 ? "831 " : "-831 ") clauses[1660 + i]
        ring(831, 97, "-0 -7 +19")
        finish(928, line("e", 1, 830) "\na 831 0\n" line("e", 832, 928) "\n")
    } else if (name == "clauses") {
        ring(0, 681, "+0 +1 -3")
        ring(0, 681, "-0 -7 +19")
        ring(0, 681, "+0 -40 +95")
        # One less, so that the five below make 2047.
        count--
        add("950 1 901 902 903 0")
        add("950 2 -901 -902 -903 0")
        add("-950 3 904 905 0")
        add("-950 4 -904 906 0")
        add("-950 5 -905 -906 0")
        finish(950, line("e", 1, 681) "\n" line("a", 901, 906) "\ne 950 0\n")
    } else if (name == "literals") {
        ring(0, 818, "+0 +1 -3 -7 +15")
        ring(0, 818, "-0 -20 +47 +101 -230")
        add("1023 1 2 3 4 0")
        add("-1023 5 6 0")
        add("-1023 7 8 0")
        finish(1023, line("e", 1, 818) "\ne 1023 0\n")
    } else if (name == "stopped") {
        many_steps(571)
    } else if (name == "own") {
        many_steps(570)
    } else if (name == "long") {
        printf "p cnf 0 0%65528s", ""
    }
}
