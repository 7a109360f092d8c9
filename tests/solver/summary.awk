# The summary of tests/solver/run: per family the formulas, their truth, what prep settled and what it left to depqbf, and by
# how much the formulas shrank. Input: the results, a line per formula with tabs between: name, family, outcome, truth, passed
# or failed.

# Adds up variables, clauses and literals of a file with one quantifier line or clause a line, into sums[what, key].
function count(file, key,    line, parts, n) {
    while ((getline line < file) > 0) {
        n = split(line, parts, " ")
        if (n == 0 || line ~ /^[cp]/) continue
        if (parts[1] == "e" || parts[1] == "a") sums["variables", key] += n - 2
        else { sums["clauses", key]++; sums["literals", key] += n - 1 }
    }
    close(file)
}

{
    family = $2
    if (!(family in seen)) { seen[family] = 1; order[++families] = family }
    for (round = 1; round <= 2; round++) {
        key = (round == 1) ? family : "all"
        total[key]++
        got[key, $3]++
        truth[key, $4]++
        if ($5 == "failed") bad[key]++
        count(work "/in/" $1 ".qdimacs", "in" key)
        count(work "/out/" $1, "out" key)
    }
    left = ($3 != "TRUE" && $3 != "FALSE")
    if (left) { count(work "/in/" $1 ".qdimacs", "in left"); count(work "/out/" $1, "out left") }
}

function part(what, key,    before) {
    before = sums[what, "in" key]
    return before == 0 ? "-" : sprintf("%d%%", 100 * sums[what, "out" key] / before + 0.5)
}

function row(key) {
    printf form, key, total[key] + 0, truth[key, "true"] + 0, truth[key, "false"] + 0, got[key, "TRUE"] + got[key, "FALSE"], \
        got[key, "FINISHED"] + 0, got[key, "OUT OF ROOM"] + 0, got[key, "STOPPED"] + 0, bad[key] + 0, \
        part("variables", key), part("clauses", key), part("literals", key)
}

END {
    order[++families] = "all"
    form = "%-14s %8s %6s %6s %8s %9s %8s %8s %7s %10s %8s %9s\n"
    printf form, "family", "formulas", "true", "false", "settled", "finished", "no room", "stopped", "failed", "variables", \
        "clauses", "literals"
    for (i = 1; i <= families; i++) row(order[i])
    print "settled: prep gave the verdict; finished, no room, stopped: left to depqbf; the last three: what prep left of it"
    printf "of the formulas left to depqbf prep left %s of the variables, %s of the clauses and %s of the literals\n", \
        part("variables", " left"), part("clauses", " left"), part("literals", " left")
}
