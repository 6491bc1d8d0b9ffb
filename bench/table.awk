# The table of docs/BENCH.md from what was timed (layout, row, nanoseconds of proved, plain and best; the least counts) and what was counted (row, bytes, text,
# instructions of proved, plain, best and the floor). Times and their ratios are the median over the layouts.
function commas(n,    s, out) {
    s = sprintf("%.0f", n)
    while (length(s) > 3) { out = "," substr(s, length(s) - 2) out; s = substr(s, 1, length(s) - 3) }
    return s out
}
function ratio(r) { return sprintf(r < 0.2 ? "%.3f" : "%.2f", r) }
function median(values, count,    i, j, v) {
    for (i = 2; i <= count; i++) {
        v = values[i]
        for (j = i - 1; j > 0 && values[j] > v; j--) values[j + 1] = values[j]
        values[j + 1] = v
    }
    return (values[int((count + 1) / 2)] + values[int(count / 2) + 1]) / 2
}
# the median over the layouts of what reader k took, or of how proved stands to it
function over_layouts(row, k,    layout, count, values) {
    for (layout = 0; (layout, row, 1) in least; layout++) values[++count] = k == 1 ? least[layout, row, 1] : least[layout, row, 1] / least[layout, row, k]
    return median(values, count)
}
FNR == 1 && FILENAME ~ /counts$/ {
    print "| row | what | bytes | proved | for each byte | plain | of plain | best | of best | floor | ns | time of plain | time of best |"
    print "|---|---|---|---|---|---|---|---|---|---|---|---|---|"
}
FILENAME ~ /times$/ {
    for (k = 1; k <= 3; k++)
        if (!(($1, $2, k) in least) || $(k + 2) < least[$1, $2, k]) least[$1, $2, k] = $(k + 2)
    next
}
{
    printf "| %s | %s | %s | %s | %s | %s | %s | %s | %s | %s |", $1, $3, commas($2), commas($4), ratio($4 / $2), commas($5), ratio($4 / $5), commas($6), ratio($4 / $6), commas($7)
    if (!((0, $1, 1) in least)) { print " | | |"; next }
    ns = over_layouts($1, 1)
    printf " %s | %s | %s |\n", ns < 1e6 ? commas(int(ns)) "." int(ns * 10) % 10 : commas(ns), ratio(over_layouts($1, 2)), ratio(over_layouts($1, 3))
}
