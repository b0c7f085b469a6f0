"""The desk's programs for texts, run as a person runs them, on texts of every kind: what they print, which file they make, and what they leave alone."""
import os
import random
import subprocess
import sys
import tempfile

import model

DESK = os.path.join(os.path.abspath(os.environ.get("PROGRAMS", "outside/build/bin")), "desk")
SEED = int(os.environ.get("SEED", "20261116"))
rng = random.Random(SEED)
count = 0


def desk(*words):
    global count
    count += 1
    ran = subprocess.run([DESK, *words], capture_output=True, check=True)
    return ran.stdout, ran.stderr


def write(name, data):
    with open(name, "wb") as file:
        file.write(data)


def held(what, got, wanted):
    if got != wanted:
        sys.exit("texts: seed %d, %s:\n got    %r\n wanted %r" % (SEED, what, got, wanted))


def made(command, text, answer, name):
    """The call on a text: its answer and the new file, or the fault or refusal and no file."""
    write("text", text)
    if os.path.exists("new"):
        os.remove("new")
    out, err = desk(command, "text", "new")
    what = "desk %s of %r" % (command, text[:2000])
    try:
        wanted, data = answer(text)
    except model.Fault as fault:
        held(what + ", standard output", out, b"")
        held(what + ", the line's start", err.startswith(b"line %d: " % fault.args) and err.count(b"\n") == 1 and err.endswith(b"\n"), True)
        held(what + ", a file", os.path.exists("new"), False)
        return None
    except model.Refused as refused:
        number, place, line = refused.args
        held(what, out, b"refused %d %d\nline %d: %s\n" % (number, place, line, model.MEANING[number].encode()))
        held(what + ", standard error", err, b"")
        held(what + ", a file", os.path.exists("new"), False)
        return None
    held(what, out, wanted)
    held(what + ", standard error", err, b"")
    held(what + ", the file", open("new", "rb").read(), data)
    return data


def table_answer(text):
    rows = model.make(text)
    return b"sound %d\n" % len(rows), model.image(rows)


def calls_answer(text):
    data = model.calls(text)
    return b"calls %d\n" % (len(data) // 4), data


def table():
    n = rng.choice([1, 2, 3, 4, 5, 7, 12, 13, 40, 64])
    most = rng.choice([1, 2, 3, 8, 62])
    rows = []
    for v in range(n):
        groups = {rng.getrandbits(n) & rng.getrandbits(n) | 1 << v for _ in range(rng.randint(1, most))}
        rows.append(sorted(groups))
    return rows


def gap(least=0):
    return "".join(rng.choice(" \t") for _ in range(rng.choice([least, least, 1, 3])))


def end():
    note = rng.choice(["", "", "", gap() + "#", "# a note: 0 | 1 \x00\u00e9 \r x"])
    return note + rng.choice(["\n", "\n", "\r\n"]) + rng.choice(["", "", "\n", "# sites 9\n", " \t\r\n"])


def digits(x):
    return rng.choice(["", "", "", "0", "00"]) + str(x)


def table_text(rows):
    out = rng.choice(["", "# from the owner\n", "\r\n"]) + gap() + "sites" + gap(1) + " " + digits(len(rows)) + gap() + end()
    for v, groups in enumerate(rows):
        groups = [[u for u in range(64) if q >> u & 1] for q in groups]
        rng.shuffle(groups)
        texts = []
        for group in groups:
            rng.shuffle(group)
            texts.append((gap() + " ").join(digits(u) for u in group))
        bar = lambda: gap() + "|" + gap()
        line = gap() + digits(v) + gap() + ":" + gap() + texts[0]
        for text in texts[1:]:
            line += bar() + text
        out += line + gap() + end()
    return out.encode("latin1")


def changed(text, letters):
    """One byte taken out, put in or changed."""
    at = rng.randrange(len(text) + 1)
    new = bytes([rng.choice(letters)])
    return rng.choice([text[:at] + text[at + 1:], text[:at] + new + text[at:], text[:at] + new + text[at + 1:]])


def tables():
    for text in TABLES:
        made("make", text, table_answer, "new")
    for _ in range(60):
        rows = table()
        data = made("make", table_text(rows), table_answer, "new")
        held("a table that was written down", data, model.image(rows))
        held("desk check of it", desk("check", "new"), (b"sound %d\n" % len(rows), b""))
        held("desk show of it", desk("show", "new"), (model.show(rows), b""))
        write("again", model.show(rows))
        os.remove("new")
        held("desk make of what is shown", desk("make", "again", "new"), (b"sound %d\n" % len(rows), b""))
        held("the file made of it", open("new", "rb").read(), data)
        short = [row[:3] for row in rows[:6]] if len(rows) <= 6 else [[1], [3]]
        text = model.show(short) if rng.random() < 0.5 else table_text([row for row in short])
        if b"\r" not in text.replace(b"\r\n", b""):
            made("make", changed(text, b"0123456789 \t\n:|#sx\x00\xff"), table_answer, "new")
    full = [[1 | k << 1 for k in range(62)]] + [[1 << v] for v in range(1, 7)]
    made("make", model.show(full), table_answer, "new")
    made("make", model.show(full).replace(b"\n1:", b" | 0 1 2 3 4 5 6\n1:"), table_answer, "new")


TABLES = [
    b"", b"\n", b"# nothing", b"sites", b"sites 4", b"sites 4\n", b"sites 0\n", b"sites 1\n", b"sites 64", b"sites 65\n", b"sites 18446744073709551617\n0: 0\n",
    b"Sites 1\n0: 0\n", b"sites4\n", b"sites 1 1\n0: 0\n", b"sites 1:\n0: 0\n", b"sites 1\n0: 0", b"sites 1\n0: 0\n", b"sites 1\r\n0: 0\r\n", b"sites 1\n0:0",
    b"sites 1\n0 : 0\n", b"sites 1\n0 0\n", b"sites 1\n0:\n", b"sites 1\n0: |\n", b"sites 1\n0: 0 |\n", b"sites 1\n0: 0 0\n", b"sites 1\n0: 0 | 0\n",
    b"sites 1\n0: 1\n", b"sites 1\n0: 0 1\n", b"sites 1\n1: 0\n", b"sites 1\n0: 0\n0: 0\n", b"sites 1\n0: 0\n# end\n\n", b"sites 1\n0: 0\nend\n",
    b"sites 2\n0: 0 1\n1: 0\n", b"sites 2\n0: 0 1\n", b"sites 2\n1: 1\n0: 0\n", b"sites 2\n0: 0\n\n\n# x\n", b"sites 2\n0: 1 0 | 0 1\n1: 1\n",
    b"sites 2\n0: 99999999999999999999 0\n1: 1\n", b"sites 2\n0: 0 : 1\n1: 1\n", b"sites 2\n0: 0,1\n1: 1\n", b"sites 2\n0: 0 -1\n1: 1\n", b"sites 2\n0: 0 1.\n1: 1\n",
    b"sites 2\n0: 0 1 # two\n1: 1 0#x\n", b"sites 1\n0: 0\r", b"sites 1\r0: 0\n", b"sites 1\n0: 0 \x0b\n", b"sites 3\n0: 2 0\n1: 1\n2: 2 x\n",
    b"sites 4\n0: 0 1 2 | 0 3\n1: 1\n2: 2\n3: 3\n",
]


def calls():
    for text in CALLS:
        made("calls", text, calls_answer, "new")
    for _ in range(60):
        few = rng.choice([2, 4, 64, 256])
        list_ = [bytes([rng.choice([0, 0, 1, 1, 2, 2, rng.randrange(256)]), rng.randrange(few), rng.randrange(few), rng.choice([0, 1, 0, 1, rng.randrange(256)])])
                 for _ in range(rng.choice([0, 1, 3, 20, 126]))]
        list_ = [bytes([c[0], c[1], c[1], c[3]]) if c[0] == 0 and rng.random() < 0.8 else c for c in list_]
        data = b"".join(list_)
        write("list", data)
        held("desk list", desk("list", "list"), (model.listed(data), b""))
        held("a list that was written down", made("calls", model.listed(data), calls_answer, "new"), data)
        part = lambda: "".join(rng.choice(" \t,;") for _ in range(rng.choice([1, 1, 2])))
        text = ""
        for call in list_:
            word = lambda w: "".join(rng.choice([letter, letter.upper()]) for letter in w)
            text += rng.choice(["", part()]) + part().join(word(w) for w in model.in_words(call).split()) + rng.choice(["", part()]) + end()
        text = text.encode("latin1")
        held("a list in other words", made("calls", text, calls_answer, "new"), data)
        few = model.listed(data[:12]) or b"vote 1 0 drill\n"
        made("calls", changed(few, b"0123456789 \t\n,;#poVx\x00\xff"), calls_answer, "new")
        other = [c for c in list_ if rng.random() < 0.9] + [rng.choice(list_ or [b"\0\0\0\0"]) for _ in range(rng.choice([0, 0, 2]))]
        other += rng.choice([[], [], [bytes([0, 1, 1, 1])], [bytes([9, 9, 9, 9])]])
        rng.shuffle(other)
        write("other", b"".join(other))
        held("desk same of %r and %r" % (data, b"".join(other)), desk("same", "list", "other"), (model.same(data, b"".join(other)), b""))
        held("desk same of a list and itself", desk("same", "list", "list"), (model.same(data, data), b""))
    most = b"".join(b"propose %d drill\n" % (k % 200) for k in range(4096))
    made("calls", most, calls_answer, "new")
    made("calls", most + b"# all\n\n", calls_answer, "new")
    made("calls", most + b"# one more\nvote 1 0 live\nnothing\n", calls_answer, "new")
    whole = bytes([1, 1, 0, 0])
    write("other", whole)
    for data in (b"123", b"\0" * 16388):
        write("list", data)
        held("desk list of %d bytes" % len(data), desk("list", "list"), (b"refused 17 0\n%s\n" % model.MEANING[17].encode(), b""))
        for a, b in (("list", "list"), ("list", "other"), ("other", "list")):
            both = [data if name == "list" else whole for name in (a, b)]
            held("desk same of %d and %d bytes" % (len(both[0]), len(both[1])), desk("same", a, b), (model.same(*both), b""))


CALLS = [
    b"", b"\n\n# nothing\n", b"propose 0 drill", b"PROPOSE 0 Drill\r\n", b"vote 1 0 drill\n", b"vote,1,0,drill\n", b";vote;1;0;live;\n", b"vote 1 0\n", b"vote 1\n", b"vote\n",
    b"vote 1 0 drill live\n", b"vote 256 0 drill\n", b"vote 255 0 drill\n", b"vote 1 0 up\n", b"look 1 0 drill\n", b"propose 0 1 drill\n", b"propose drill\n", b"0 1 2 3\n", b"0,1,2,3",
    b"9 9 9 9\n", b"1 0 1 0\n", b"0 1 2\n", b"0 1 2 3 4\n", b"0 1 2 256\n", b"0 1 2 drill\n", b"accept 02 000 live\n", b"kind,from,to,side\nvote,1,0,drill\n", b"#kind\nvote,1,0,drill\n",
    b"vote 1 0 drill#x\n", b"vote 1 0 drill # x\r\n\r\n", b"vote 1 0 drill\r", b"vote\r1 0 drill\n", b"vote 1 0 dril\n", b"vote 1 0 drilll\n", b"vote -1 0 drill\n", b"vote 1 0 drill\nx\ny\n",
    b"18446744073709551616 0 0 0\n", b"\xff\n", b"\0\n",
]


def files():
    """What stands in the way: a name that is taken, a text that is not there or far too long."""
    write("good", b"sites 1\n0: 0\n")
    write("calls", b"vote 1 0 drill\n")
    write("there", b"old")
    os.mkdir("folder")
    long = b"#" * 3000000
    write("long", long)
    for command, text in (("make", "good"), ("calls", "calls")):
        for words in ((text, "there"), (text, "folder"), ("missing", "new-" + command), ("folder", "new-" + command), ("long", "new-" + command), (text, "no-such/new")):
            out, err = desk(command, *words)
            held("desk %s %s" % (command, " ".join(words)), (out, err.count(b"\n"), err.endswith(b"\n"), err.startswith(b"desk %s " % command.encode())), (b"", 1, True, True))
    held("the file that was there", open("there", "rb").read(), b"old")
    held("what the folder holds", sorted(name for name in os.listdir(".") if name.startswith("new-") or name.endswith(".part")), [])
    out, err = desk("show", "good")
    held("desk show of no table", out.startswith(b"refused 1 0\n"), True)


model.read_leaflet("docs/LEAFLET.md")
with tempfile.TemporaryDirectory() as room:
    os.chdir(room)
    tables()
    calls()
    files()
    os.chdir("/")
print("texts: %d calls of the desk as the model says (seed %d)" % (count, SEED))
