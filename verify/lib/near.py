"""Which name is near a mistyped word, as docs/ERRORS.md defines it."""


def steps(word, name):
    """How many letters are inserted, left out, replaced or swapped with the next one."""
    table = {}
    for i in range(len(word) + 1):
        for j in range(len(name) + 1):
            ways = [max(i, j)] if 0 in (i, j) else [
                table[i - 1, j] + 1, table[i, j - 1] + 1,
                table[i - 1, j - 1] + (word[i - 1] != name[j - 1])]
            if min(i, j) > 1 and (word[i - 2:i], word[i - 1]) == (name[j - 2:j][::-1], name[j - 2]):
                ways.append(table[i - 2, j - 2] + 1)
            table[i, j] = min(ways)
    return table[len(word), len(name)]


def small(text):
    """A text with the capital letters of ASCII as small ones."""
    return "".join(c.lower() if c.isascii() else c for c in text)


def nearest(word, names):
    """The first of the names that differ least from a word, or None."""
    most = min(len(word.encode()) // 3, 2)
    counts = [steps(small(word), small(name)) for name in names]
    return names[counts.index(min(counts))] if min(counts) <= most else None
