"""A second implementation of lines, packed lines, hash families and the account of a list of pages.

It follows docs/RULES.md and shares no code with the proved crates; `compare.py` runs both side by side.
"""

WAYS = 3
CLUSTERS = 1 << 33
MASK = (1 << 32) - 1


def rotl(x, k):
    return ((x << k) | (x >> (32 - k))) & MASK if k else x


def digit(way, cluster):
    return (cluster // 8 ** way) & MASK


def mix(way, cluster):
    z = ((cluster & MASK) + (cluster >> 32) * 0x9E3779B9) & MASK
    return rotl(z * (0x9E3779B1, 0x85EBCA6B, 0xC2B2AE35)[way] & MASK, 16)


def xorshift_table(count):
    x = 1
    for _ in range(count):
        yield x
        x ^= x << 13 & MASK
        x ^= x >> 17
        x ^= x << 5 & MASK


TABLE = list(xorshift_table(1280))


def table(way, cluster):
    x = 0
    for j in range(5):
        x ^= TABLE[256 * j + (cluster >> 8 * j & 255)]
    return rotl(x, 11 * way)


def number(family, way, cluster):
    return family(way, cluster) if way < WAYS and cluster < CLUSTERS else 0


def pack(cluster, words):
    out = b""
    for k, word in enumerate(words):
        out += (word | (cluster >> 5 * k & 31) << 59).to_bytes(8, "little")
    return out


def is_entry_word(word):
    return word == 0 or (word % 8 != 0 and word < 1 << 37)


def unpack(data):
    """The cluster and the entry words, or None where no line packs to the bytes."""
    if len(data) != 64:
        return None
    packed = [int.from_bytes(data[8 * k:8 * k + 8], "little") for k in range(8)]
    words = [w % (1 << 59) for w in packed]
    cluster = sum((w >> 59) << 5 * k for k, w in enumerate(packed))
    if not all(map(is_entry_word, words)) or cluster >= CLUSTERS or (cluster and not any(words)):
        return None
    return cluster, words


def damages(cluster, words):
    """How many of the 512 single-bit damages of a packed line still are some line."""
    data = int.from_bytes(pack(cluster, words), "little")
    return sum(unpack((data ^ 1 << bit).to_bytes(64, "little")) is not None for bit in range(512))


def read_number(field):
    ok = 1 <= len(field) <= 15 and all(48 <= b <= 57 for b in field)
    return int(field) if ok else None


def lines_of(text):
    lines = text.split(b"\n")
    return lines if lines[-1] else lines[:-1]


def lay_out(text):
    """The lines by cluster, and the refusals as pairs of line number and refusal."""
    book, refused = {}, []
    for n, row in enumerate(lines_of(text), 1):
        fields = [read_number(f) for f in row.split(b",")]
        if len(fields) != 3 or None in fields:
            refused.append((n, 15))
            continue
        page, frame, rights = fields
        if page >= 1 << 36:
            refused.append((n, 3))
        elif frame >= 1 << 34:
            refused.append((n, 4))
        elif not 1 <= rights <= 7:
            refused.append((n, 5))
        elif page in book:
            refused.append((n, 6))
        else:
            book[page] = frame * 8 + rights
    lines = {}
    for page, word in book.items():
        lines.setdefault(page // 8, [0] * 8)[page % 8] = word
    return lines, len(book), refused


def account(text):
    lines, pages, refused = lay_out(text)
    out = []
    for cluster in sorted(lines):
        data = pack(cluster, lines[cluster])
        out.append("cluster %d\n  packed %s\n" % (cluster, data.hex()))
        for name, family in (("digit ", digit), ("mix   ", mix), ("table ", table)):
            out.append("  %s %s\n" % (name, " ".join(str(number(family, w, cluster)) for w in range(WAYS))))
        same = unpack(data) == (cluster, lines[cluster])
        out.append("  unpacks to %s line\n" % ("the same" if same else "another"))
    out += ["line %d refused: %d\n" % r for r in refused]
    out.append("%d pages, %d lines, %d bytes, %d refused\n" % (pages, len(lines), 64 * len(lines), len(refused)))
    return "".join(out)
