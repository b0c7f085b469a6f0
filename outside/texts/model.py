"""Tables and calls as text: a second writing, in plain Python, of the words that describe them to a person.

A text of a table is a table (its image on file), a fault (a line and nothing more), or a refusal (number, site, line). A text of calls is a list of
calls, a fault, or a refusal."""
import re

MEANING = {}


def read_leaflet(path):
    for row in open(path, encoding="utf8"):
        cells = [cell.strip() for cell in row.split("|")]
        if len(cells) > 3 and cells[1].isdigit():
            MEANING[int(cells[1])] = cells[2]


class Fault(Exception):
    pass


class Refused(Exception):
    pass


def lines_of(text):
    """The lines, without their ends and comments, and how many there are: an end that is missing at the last line makes no difference."""
    parts = text.split(b"\n")
    ended = parts[:-1]
    last = [parts[-1]] if parts[-1] else []
    out = [line[:-1] if line.endswith(b"\r") else line for line in ended] + last
    # a comment takes every byte up to the line's end, a CR before LF among them
    cut = []
    for line, raw in zip(out, ended + last):
        cut.append(raw.split(b"#")[0] if b"#" in raw else line)
    return cut


# ---- tables


def seal(block):
    s = t = 0
    for i in range(0, 504, 4):
        s = (s + int.from_bytes(block[i:i + 4], "little")) % 2**32
        t = (t + s) % 2**32
    return block + s.to_bytes(4, "little") + t.to_bytes(4, "little")


def image(rows):
    out = b""
    for site, groups in enumerate(rows):
        block = b"".join(x.to_bytes(2, "little") for x in (site, len(rows), len(groups), 0))
        block += b"".join(q.to_bytes(8, "little") for q in groups)
        out += seal(block.ljust(504, b"\0"))
    return out


def words(line):
    """Numbers, `sites`, colons and bars, with blanks and tabs between them; anything else is a word that is none."""
    return re.findall(rb"[:|]|[^ \t:|]+", line)


def number(word):
    return int(word) if re.fullmatch(rb"[0-9]+", word) else None


def group_of(line, site, n, groups, parts):
    """One group of a site: its words between the bars. The first thing that is wrong is named."""
    mask = 0
    if not parts:
        raise Fault(line)
    for k, word in enumerate(parts):
        x = number(word)
        if x is None:
            raise Fault(line)
        if k == 0 and len(groups) == 62:
            raise Refused(4, site, line)
        if x >= n:
            raise Refused(5, site, line)
        if mask >> x & 1:
            raise Fault(line)
        mask |= 1 << x
    if not mask >> site & 1:
        raise Refused(5, site, line)
    if mask in groups:
        raise Refused(6, site, line)
    return mask


def make(text):
    """The rows of the table: a sorted list of masks a site."""
    lines = lines_of(text)
    n = None
    rows = []
    for at, line in enumerate(lines, 1):
        said = words(line)
        if not said:
            continue
        if n is None:
            if said[0] != b"sites" or len(said) < 2 or number(said[1]) is None or not 1 <= number(said[1]) <= 64 or len(said) > 2:
                raise Fault(at)
            n = number(said[1])
            continue
        site = len(rows)
        if site == n or number(said[0]) != site or said[1:2] != [b":"]:
            raise Fault(at)
        groups = []
        parts = [[]]
        for word in said[2:]:
            if word == b"|":
                groups.append(group_of(at, site, n, groups, parts[-1]))
                parts.append([])
            elif word == b":":
                # what stands before it is looked at first
                if parts[-1]:
                    before_a_colon(at, site, n, groups, parts[-1])
                raise Fault(at)
            else:
                parts[-1].append(word)
        groups.append(group_of(at, site, n, groups, parts[-1]))
        rows.append(sorted(groups))
    if n is None or len(rows) < n:
        raise Fault(len(lines) + 1)
    return rows


def before_a_colon(line, site, n, groups, parts):
    """A group that a colon breaks off: sites too high or too many groups are named before the colon, an owner that is missing is not."""
    try:
        group_of(line, site, n, groups, parts)
    except Refused as r:
        whole = all(number(word) is not None and number(word) < n for word in parts)
        if r.args[0] == 4 or not whole:
            raise


def show(rows):
    out = "sites %d\n" % len(rows)
    for site, groups in enumerate(rows):
        out += "%d: %s\n" % (site, " | ".join(" ".join(str(v) for v in range(64) if q >> v & 1) for q in groups))
    return out.encode()


# ---- calls

KINDS = {b"propose": 0, b"vote": 1, b"accept": 2}
SIDES = {b"drill": 0, b"live": 1}


def call_of(line, said):
    byte = lambda word: number(word) if number(word) is not None and number(word) < 256 else None
    said = [word.lower() for word in said]
    if len(said) == 4 and all(byte(word) is not None for word in said):
        return bytes(byte(word) for word in said)
    kind = KINDS.get(said[0])
    sites = said[1:-1]
    if kind is None or said[-1] not in SIDES or len(sites) != (1 if kind == 0 else 2) or any(byte(word) is None for word in sites):
        raise Fault(line)
    return bytes([kind, byte(sites[0]), byte(sites[-1]), SIDES[said[-1]]])


def calls(text):
    out = []
    for at, line in enumerate(lines_of(text), 1):
        said = re.findall(rb"[^ \t,;]+", line)
        if said:
            call = call_of(at, said)
            if len(out) == 4096:
                raise Refused(17, 0, at)
            out.append(call)
    return b"".join(out)


def in_words(call):
    kind, sender, to, side = call
    if kind > 2 or side > 1 or (kind == 0 and sender != to):
        return "%d %d %d %d" % (kind, sender, to, side)
    side = ("drill", "live")[side]
    return "propose %d %s" % (to, side) if kind == 0 else "%s %d %d %s" % (("vote", "accept")[kind - 1], sender, to, side)


def each(data):
    return [data[i:i + 4] for i in range(0, len(data), 4)]


def misshapen(data):
    return len(data) % 4 != 0 or len(data) > 16384


def listed(data):
    return "".join(in_words(call) + "\n" for call in each(data)).encode()


def once(list_):
    return list(dict.fromkeys(list_))


def same(first, second):
    for which, data in (("first", first), ("second", second)):
        if misshapen(data):
            return ("%s\nrefused 17 0\n%s\n" % (which, MEANING[17])).encode()
    a, b = once(each(first)), once(each(second))
    out = "".join("first %s\n" % in_words(call) for call in a if call not in set(b))
    out += "".join("second %s\n" % in_words(call) for call in b if call not in set(a))
    out = out or "same\n"
    proposed = {(call[2], call[3]) for call in a + b if call[0] == 0 and call[1] == call[2] and call[3] < 2}
    for v in range(256):
        if (v, 0) in proposed and (v, 1) in proposed:
            out += "both %d\n" % v
    return out.encode()
