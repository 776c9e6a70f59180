# Whether runs in which memory was wanting print what they are to: allowed.awk WANTED RUNS. Behind each run stands a line `--`. A run
# prints the lines wanted, but that a stabilize that was given again has a later number, and no lines for what the one before told, or that
# it broke the session: then it and each line behind it print `refused 22 0`. Lines that begin with `told` are of notices that were read: they
# come in the order wanted, none is lost and none comes twice, wherever among the others they stand.
NR == FNR { if (/^told /) told[++tolds] = $0; else wanted[++lines] = $0; next }
$0 == "--" {
    pass_over()
    if (at != lines) tell("only " at " lines")
    if (heard != tolds && !is_broken) tell("only " heard + 0 " notices")
    runs++; at = last = heard = is_again = is_broken = 0
    next
}
/^told / {
    if ($0 != told[++heard]) tell(substr($0, 1, 60) ", and not " substr(told[heard], 1, 60))
    next
}
{
    if ($0 != wanted[at + 1]) pass_over()
    at++
    if (is_broken || (wanted[at] ~ /^stable / && $0 == "refused 22 0")) {
        if (!is_broken) broken++
        is_broken = 1
        if ($0 != "refused 22 0") tell("behind a broken session: " $0)
    } else if (wanted[at] ~ /^stable / && $0 ~ /^stable [0-9]+$/) {
        split($0, word, " "); split(wanted[at], least, " ")
        if (word[2] + 0 < least[2] + 0 || word[2] + 0 <= last) tell("not the next number: " $0)
        is_again = word[2] + 0 > last + 1
        last = word[2] + 0
    } else if ($0 != wanted[at]) tell(substr($0, 1, 60) ", and not " substr(wanted[at], 1, 60))
}
# the lines of notices that the session doesn't print, since its stabilize was given again or it is broken
function pass_over() {
    while ((is_again || is_broken) && wanted[at + 1] ~ /^[^ ]+ (init|change|invalid)/) at++
}
function tell(what) { if (!faults++) print "run " runs + 1 ", line " at ": " what }
END {
    print runs + 0 " runs, " broken + 0 " with a broken session"
    exit faults || runs < 2 || at
}
