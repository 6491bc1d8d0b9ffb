# Rows "P HEX 0" from shelfcheck's corpus, and the answers that its report gives: awk -f frames.awk -v rows=FILE -v answers=FILE REPORT LINES, where LINES are
# the lines "NUMBER:HEX" of the corpus that are pairs of digits. One that is not closed is no frame yet; all others must be refused as lines, by 20 or 25.
BEGIN { FS = "[ :]" }
NR == FNR { report[$1] = $2 " " $3 " " $4 " " $5; next }
{
    said = report[$1]
    delete report[$1]
    if (said ~ / OPEN /) next
    sub(/ OK /, " complete ", said) && sub(/ 0$/, "", said)
    sub(/ CUT /, " unfinished ", said) && sub(/ 0$/, "", said)
    sub(/ BAD /, " refused ", said) && sub(/ [0-9]+$/, " at&", said)
    print "P " $2 " 0" > rows
    print "P " $2 " 0 " said > answers
}
END {
    for (number in report) if (report[number] !~ / (BAD 20|BAD 25|OPEN) /) { print "line " number " is not asked for"; exit 1 }
}
