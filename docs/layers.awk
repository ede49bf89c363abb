# Draws the crates by layers, from crates.txt and the numbers of the walk in ARCHITECTURE.md:
#   awk -f docs/layers.awk crates.txt docs/ARCHITECTURE.md > docs/layers.svg
# A crate stands in the layer above the highest crate that it uses. A line leads to each crate that it uses and that no other
# of those uses, but for fuun_base and fuun_io. checks/hints compares the drawing with docs/layers.svg.
FNR == NR {
    sub(/#.*/, "")
    if (split($0, half, ":") < 2) next
    name = half[1]
    names[++crates] = name
    known[name] = 1
    used[name] = half[2]
    next
}
/^\| [0-9]/ {
    split($0, cell, "|")
    if (match(cell[3], /`[a-z_]+`/)) {
        name = substr(cell[3], RSTART + 1, RLENGTH - 2)
        number = cell[2]
        gsub(/ /, "", number)
        walk[name] = walk[name] (walk[name] == "" ? "" : ", ") number
    }
}

# How high a crate stands above those that use none.
function layer(name,    part, count, i, above) {
    if (name in height) return height[name]
    count = split(used[name], part, " ")
    above = 0
    for (i = 1; i <= count; i++)
        if (part[i] in known && layer(part[i]) >= above) above = layer(part[i]) + 1
    height[name] = above
    return above
}

# Whether a crate uses another, be it through others.
function reaches(name, other,    part, count, i) {
    if ((name, other) in told) return told[name, other]
    told[name, other] = 0
    count = split(used[name], part, " ")
    for (i = 1; i <= count; i++)
        if (part[i] == other || (part[i] in known && reaches(part[i], other))) told[name, other] = 1
    return told[name, other]
}

# Whether a line is drawn from a crate to one that it uses.
function is_drawn(name, other,    part, count, i) {
    if (!(other in known) || other == "fuun_base" || other == "fuun_io") return 0
    count = split(used[name], part, " ")
    for (i = 1; i <= count; i++)
        if (part[i] != other && part[i] in known && reaches(part[i], other)) return 0
    return 1
}

# Where a crate would stand right above those that its lines lead to.
function middle(name,    part, count, i, sum, lines) {
    count = split(used[name], part, " ")
    for (i = 1; i <= count; i++)
        if (is_drawn(name, part[i])) { sum += x[part[i]]; lines++ }
    return lines ? sum / lines : width / 2
}

function place_row(row,    count, i, j, kept, order) {
    count = 0
    for (i = 1; i <= crates; i++)
        if (layer(names[i]) == row) order[++count] = names[i]
    for (i = 2; i <= count; i++)
        for (j = i; j > 1 && middle(order[j]) < middle(order[j - 1]); j--) {
            kept = order[j]; order[j] = order[j - 1]; order[j - 1] = kept
        }
    for (i = 1; i <= count; i++) x[order[i]] = int(width * (i - 0.5) / count)
}

function y(name) { return step * (top - layer(name)) + 34 }

END {
    width = 1280; step = 92; box = 122; high = 34
    for (i = 1; i <= crates; i++) if (layer(names[i]) > top) top = layer(names[i])
    for (row = 0; row <= top; row++) place_row(row)
    tall = step * top + 68
    print "<svg xmlns=\"http://www.w3.org/2000/svg\" viewBox=\"0 0 " width " " tall "\" width=\"" width "\" height=\"" tall "\" role=\"img\">"
    print "<title>The crates by layers</title>"
    print "<desc>Each crate stands on those that its lines lead down to. The numbers are those of the walk in ARCHITECTURE.md.</desc>"
    print "<style>text { text-anchor: middle; font: bold 13px monospace } .walk { font: 10px sans-serif } rect { fill: #eef3f8; stroke: #777 } path { fill: none; stroke: #888; stroke-width: 1.2 }</style>"
    print "<rect width=\"" width "\" height=\"" tall "\" style=\"fill: #fff; stroke: none\"/>"
    for (i = 1; i <= crates; i++) {
        count = split(used[names[i]], part, " ")
        for (j = 1; j <= count; j++) if (is_drawn(names[i], part[j])) {
            from = y(names[i]) + high / 2; to = y(part[j]) - high / 2
            print "<path d=\"M" x[names[i]] " " from "C" x[names[i]] " " from + 34 " " x[part[j]] " " to - 34 " " x[part[j]] " " to "\"/>"
        }
    }
    for (i = 1; i <= crates; i++) {
        name = names[i]
        print "<rect x=\"" x[name] - box / 2 "\" y=\"" y(name) - high / 2 "\" width=\"" box "\" height=\"" high "\" rx=\"4\"/>"
        print "<text x=\"" x[name] "\" y=\"" y(name) + (name in walk ? -1 : 4) "\">" name "</text>"
        if (name in walk) print "<text class=\"walk\" x=\"" x[name] "\" y=\"" y(name) + 12 "\">" walk[name] "</text>"
    }
    print "</svg>"
}
