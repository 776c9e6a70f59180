# Prints the name of a crate of crates.txt and of each that it stands on, directly or through others, a line each:
#     awk -v top=CRATE -f tools/below.awk crates.txt

BEGIN { FS = ":" }

!/^#/ && NF > 1 {
    split($1, words, " ")
    stands_on[words[1]] = $2
}

function take(crate,    below, count, i) {
    if (crate in taken || !(crate in stands_on)) return
    taken[crate]
    print crate
    count = split(stands_on[crate], below, " ")
    for (i = 1; i <= count; i++) take(below[i])
}

END { take(top) }
