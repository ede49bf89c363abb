# Makes a listing or a trace of the gallery's programs easier to read: it gives the DNA of each drawing command its name,
# and writes {1,0}*20 for a group that stands twenty times in a row.
#   bin/fuun list --dna island.dna --count 9 | awk -f docs/gallery/words.awk
BEGIN {
    count = split("IIIPIPIIIC black IIIPIPIIIP red IIIPIPIICC green IIIPIPIICF yellow IIIPIPIICP blue IIIPIPIIFC magenta " \
        "IIIPIPIIFF cyan IIIPIPIIPC white IIIPIPIIPF transparent IIIPIPIIPP opaque IIIPIIPICP empty IIIPIIIIIP move " \
        "IIIPCCCCCP counterclockwise IIIPFFFFFP clockwise IIIPCCIFFP mark IIIPFFICCP line IIIPIIPIIP fill " \
        "IIIPCCPFFP layer IIIPFFPCCP compose IIIPFFICCF clip", word, " ")
}
{
    rest = $0
    for (i = 1; i < count; i += 2)
        gsub(word[i], " " word[i + 1] " ", rest)
    gsub(/ +/, " ", rest)
    gsub(/< /, "<", rest)
    gsub(/ >/, ">", rest)
    sub(/ $/, "", rest)
    text = ""
    while (match(rest, /[{][0-9]+,[0-9]+[}]/)) {
        group = substr(rest, RSTART, RLENGTH)
        text = text substr(rest, 1, RSTART - 1) group
        rest = substr(rest, RSTART + RLENGTH)
        for (times = 1; index(rest, group) == 1; times++)
            rest = substr(rest, length(group) + 1)
        if (times > 2)
            text = text "*" times
        else if (times == 2)
            text = text group
    }
    print text rest
}
