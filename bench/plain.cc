// The machine of docs/MACHINE.md over one flat string, to measure against: written as short as it goes, and proved nowhere.
//
//   plain FILE BUDGET    makes at most so many attempts on the letters of a file, and writes the DNA that is left
#include <cstdint>
#include <cstdio>
#include <cstdlib>
#include <string>
#include <utility>
#include <vector>

using Dna = std::string;

struct Ended {};  // a reading ran out

struct Item {
    char kind;  // of a pattern: base, skip '!', search '<', group '(' and ')'; of a template: base, group '{', length '|'
    uint64_t number = 0, level = 0;
    Dna text = {};
};

static Dna dna;
static size_t at;

static bool begins(const char *front) { return dna.compare(at, std::char_traits<char>::length(front), front) == 0; }

static uint64_t numeral() {
    uint64_t value = 0, weight = 1;
    for (; at < dna.size(); at++, weight = weight >> 62 ? weight : weight * 2) {
        if (dna[at] == 'P') return at++, value;
        if (dna[at] == 'C') value = value + weight < value ? UINT64_MAX : value + weight;
    }
    throw Ended{};
}

// The base that is quoted here, or 0.
static char unquoted() {
    if (begins("C")) return at += 1, 'I';
    if (begins("F")) return at += 1, 'C';
    if (begins("P")) return at += 1, 'F';
    if (begins("IC")) return at += 2, 'P';
    return 0;
}

static Dna constants() {
    Dna text;
    while (char base = unquoted()) text += base;
    return text;
}

static std::vector<Item> pattern() {
    std::vector<Item> items;
    for (int open = 0;;) {
        if (char base = unquoted()) items.push_back({base});
        else if (begins("IP")) at += 2, items.push_back({'!', numeral()});
        else if (begins("IF")) at = std::min(at + 3, dna.size()), items.push_back({'<', 0, 0, constants()});
        else if (begins("IIP")) at += 3, open++, items.push_back({'('});
        else if (begins("IIC") || begins("IIF")) {
            at += 3;
            if (open-- == 0) return items;
            items.push_back({')'});
        } else if (begins("III")) at = std::min(at + 10, dna.size());
        else throw Ended{};
    }
}

static std::vector<Item> replacement() {
    std::vector<Item> items;
    for (;;) {
        if (char base = unquoted()) items.push_back({base});
        else if (begins("IF") || begins("IP")) {
            at += 2;
            uint64_t level = numeral();
            items.push_back({'{', numeral(), level});
        } else if (begins("IIC") || begins("IIF")) return at += 3, items;
        else if (begins("IIP")) at += 3, items.push_back({'|', numeral()});
        else if (begins("III")) at = std::min(at + 10, dna.size());
        else throw Ended{};
    }
}

static Dna quoted(const Dna &text, uint64_t level) {
    Dna from = text;
    for (; level > 0 && !from.empty(); level--) {
        Dna to;
        for (char base : from) to += base == 'I' ? "C" : base == 'C' ? "F" : base == 'F' ? "P" : "IC";
        from = std::move(to);
    }
    return from;
}

static Dna number(uint64_t n) {
    Dna digits;
    for (; n > 0; n /= 2) digits += n % 2 ? 'C' : 'I';
    return digits + 'P';
}

// Goes through the items from the place that is left; false where they do not match.
static bool match(const std::vector<Item> &items, std::vector<Dna> &groups) {
    std::vector<size_t> open;
    for (const Item &item : items) {
        if (item.kind == '!') {
            if (item.number > dna.size() - at) return false;
            at += item.number;
        } else if (item.kind == '<') {
            size_t found = dna.find(item.text, at);
            if (found == Dna::npos) return false;
            at = item.text.empty() ? at : found + item.text.size();
        } else if (item.kind == '(') open.push_back(at);
        else if (item.kind == ')') groups.push_back(dna.substr(open.back(), at - open.back())), open.pop_back();
        else if (at < dna.size() && dna[at] == item.kind) at++;
        else return false;
    }
    return true;
}

static void attempt() {
    at = 0;
    auto items = pattern();
    auto puts = replacement();
    size_t start = at;
    std::vector<Dna> groups;
    if (!match(items, groups)) {
        dna.erase(0, start);
        return;
    }
    Dna front;
    for (const Item &put : puts) {
        const Dna none, &text = put.number < groups.size() ? groups[put.number] : none;
        if (put.kind == '{') front += quoted(text, put.level);
        else if (put.kind == '|') front += number(text.size());
        else front += put.kind;
    }
    dna.replace(0, at, front);
}

int main(int count, char **words) {
    FILE *file = count == 3 ? fopen(words[1], "r") : nullptr;
    if (!file) return fprintf(stderr, "usage: plain FILE BUDGET\n"), 2;
    std::vector<char> piece(1 << 20);
    while (size_t got = fread(piece.data(), 1, piece.size(), file))
        for (size_t i = 0; i < got; i++)
            if (piece[i] > ' ') dna += piece[i];
    try {
        for (uint64_t left = strtoull(words[2], nullptr, 10); left > 0; left--) attempt();
    } catch (Ended) {
    }
    dna += '\n';
    fwrite(dna.data(), 1, dna.size(), stdout);
}
