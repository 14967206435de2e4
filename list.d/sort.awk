# Reads the words of a rule that is refused with 6, so that every entry is in its range. Writes the keys of the lists that
# don't rise strictly, and the words with those lists sorted and doubled entries dropped.

{
    for (i = 1; i <= NF; i++) if ($i ~ /^by/) $i = sorted_word($i)
    print keys
    print
}

function sorted_word(word,    at, entries, count, i, order, last, is_rising, entry_at, sorted) {
    at = index(word, "=")
    count = split(substr(word, at + 1), entries, ",")
    is_rising = 1
    last = -400
    for (i = 1; i <= count; i++) {
        order = order_of(entries[i])
        if (order <= last) is_rising = 0
        last = order
        entry_at[order] = entries[i]
    }
    if (is_rising) return word
    keys = keys (keys == "" ? "" : ", ") substr(word, 1, at - 1)
    for (order = -399; order < 400; order++) if (order in entry_at) sorted = sorted "," entry_at[order]
    return substr(word, 1, at) substr(sorted, 2)
}

# BYDAY's pairs go by n, then weekday.
function order_of(entry,    at) {
    at = index(entry, ":")
    return at ? 7 * substr(entry, 1, at - 1) + substr(entry, at + 1) : entry + 0
}
