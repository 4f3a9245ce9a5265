"""What tests/hold-rules and tests/mutants share: lists of calls, tapes, captures, and the rules alone with claims about them.

The rules alone are a copy of the crates without their functions and without the proofs about them, so that they can be tried
before code and proofs follow a change of them. The claims, that the rules give the listed answers, stand in the copy's crate
`example_claims` and are checked by computation.
"""
import glob
import json
import os
import re
import shutil
import subprocess

ROOT = os.path.dirname(os.path.dirname(os.path.abspath(__file__)))
CLAIMS = "example_claims"
ROOM = {"paper": 4096, "wire": 8192}  # of the lent buffers, where a list says nothing
PART = 250  # terms to a definition: a long list is written as a sum of short ones
MOST = 1024  # bytes to a line
SHORT = 300  # bytes of a tape that computes quickly

FUNCTION = re.compile(r'^(#\[([^][]|\[[^]]*\])*\]\n)*((pub )?(extern "C" )?fn|impl)\b.*?^\}\n', re.M | re.S)  # or a block of them
TRAIT = re.compile(r"^((?:pub )?trait \w+[^{\n]*)\{.*?^\}\n", re.M | re.S)  # its items are functions, and terms about them
GHOST = re.compile(r"^ghost use [^;]*;\n", re.M)
PASSED_ON = re.compile(r"^((?:pub )?use \w+(?:::\w+)*)::(\w+|\{[^}]*\});\n", re.M)
ABOVE = re.compile(r"^use Rattle\.(?!lists\.|%s\.)\w+\.proofs\." % CLAIMS, re.M)  # a proof about other crates' proofs
HERE = re.compile(r"^\./(?=(specs|proofs)/)", re.M)  # how the check of a crate begins the name of a file of the crate's own
ERROR = re.compile(r"^crates/(\w+)/(specs|proofs)/(\S+?)\.antt:\d+:\d+: error: `([^`]+)`(.*(?:\n  .*)*)", re.M)

STATUSES = ["free", "pending", "pending as itself", "accepted", "refused"]
HANDLERS = ["receiver", "sender"]
OPTIONS = 4  # about output disposition: NAOCRD, NAOLFD, NAOFFD, NAOHTD
OUTPUTS = ["ready", "waiting"]
TAKES = {  # bytes; network bytes and keys are a call each, and a text may have any number
    "P": {"net": 1, "key": 1, "ask": 2, "suggest": 2, "report": 0},
    "B": {"net": 1, "text": 1, "ask": 2, "suggest": 2, "order": 5, "define": 1, "use": 1, "issue": 2, "status": 1, "report": 0, "output": 0},
}


class BadList(Exception):
    """A list that says nothing, or something that is not understood."""


class Listed:
    """A list: of each session the calls as terms, by end, with the answers and the place of each."""

    def __init__(self, path):
        self.path = path
        self.sessions = []

    def fresh(self):
        self.sessions.append({"P": [], "B": []})

    def add(self, end, term, answer, place):
        self.sessions[-1][end].append((term, answer, place))

    def size(self):
        return sum(len(calls) for session in self.sessions for calls in session.values())

    def claims(self, prefix):
        """The claims about this list, one for each session of an end: its name, its text, and the session."""
        if not self.size():
            raise BadList("%s: no calls" % self.path)
        for i, session in enumerate(self.sessions):
            for end, calls in session.items():
                if calls:
                    name = "%s-%s%d" % (prefix, end, i)
                    yield "agrees" + name, session_claim(name, end, calls), (end, calls)


class Tape:
    """A tape, and the lines that it prints."""

    def __init__(self, path):
        self.path = path
        self.tape = open(path, "rb").read()
        self.lines = printed_lines(path)

    def size(self):
        return len(self.tape)

    def claims(self, prefix):
        tape, lines, name = "tape" + prefix, "lines" + prefix, "agrees" + prefix
        text = definition(tape, "ℕ", ["%d" % b for b in self.tape]) + definition(lines, "ℕ", ["%d" % b for b in self.lines])
        yield name, text + claim(name, "bytes_difference 1 (tape_output %s) %s" % (tape, lines), "tape_rules"), "the lines"


class Capture:
    """A capture, what it is mended to, and the lines that tell what was dropped."""

    def __init__(self, path):
        self.path = path
        files = [path[: -len("capture")] + ending for ending in ("capture", "out", "err")]
        for file in files:
            if not os.path.exists(file):
                raise BadList("%s: no %s beside it" % (path, file))
        self.files = dict(zip(("capture", "mended", "lines"), (open(file, "rb").read() for file in files)))

    def size(self):
        return len(self.files["capture"])

    def claims(self, prefix):
        names = {file: file + prefix for file in self.files}
        shared = "".join(definition(names[f], "ℕ", ["%d" % b for b in self.files[f]]) for f in names)
        rule = {"mended": ("mended %(capture)s", "the mended capture"), "lines": ("lines_of (drops %(capture)s)", "the lines")}
        for file, (given, what) in rule.items():
            name = "agrees-%s%s" % (file, prefix)
            yield name, shared + claim(name, "bytes_difference 1 (%s) %s" % (given % names, names[file]), "mending_rules"), what
            shared = ""


def printed_lines(path):
    """What stands beside a tape in NAME.out, or below its name in the file `stdout` of its crate."""
    beside = path[: -len(".tape")] + ".out"
    if os.path.exists(beside):
        return open(beside, "rb").read()
    crate = os.path.dirname(os.path.dirname(os.path.abspath(path)))
    names = open(os.path.join(crate, "args")).read().split()
    lines, found = [], False
    for line in open(os.path.join(crate, "stdout"), "rb").read().splitlines(keepends=True):
        if line.decode().strip() in names:
            found = line.decode().strip() == os.path.basename(path)
        elif found:
            lines.append(line)
    return b"".join(lines)


# Terms


def numbers(values):
    return "".join("%d ∷ " % v for v in values) + "[]"


def definition(name, kind, terms):
    """A list of terms as a definition, a long one cut into parts."""
    if len(terms) <= PART:
        return "abbrev %s : List %s\n%s =%s []\n\n" % (name, kind, name, "".join("\n    (%s) ∷" % t for t in terms))
    parts = [(name + "-%d" % i, terms[i : i + PART]) for i in range(0, len(terms), PART)]
    text = "".join(definition(part, kind, some) for part, some in parts)
    return text + "abbrev %s : List %s\n%s = %s\n\n" % (name, kind, name, " ++ ".join("(" + part for part, _ in parts) + ")" * len(parts))


def claim(name, test, rules):
    return "%s : %s ≡ 0\nunfolding same_bytes first_difference bytes_difference %s\n%s = refl\n\n" % (name, test, rules, name)


def session_claim(name, end, calls):
    """That a session of an end gives the answers listed with its calls."""
    kind, lines, rules = {"P": ("PrinterLine", "printer_lines P.fresh", "printer_rules printer_lines"),
                          "B": ("BulletinLine", "bulletin_lines B.fresh", "bulletin_rules bulletin_lines")}[end]
    terms, answers, _ = zip(*calls)
    text = definition("calls" + name, kind, ["%s.%s" % (kind, t) for t in terms]) + definition("answers" + name, "Shown", answers)
    return text + claim("agrees" + name, "first_difference 1 (%s calls%s) answers%s" % (lines, name, name), rules)


def shown(code, note, paper, wire, waiting):
    return "show %d %d (%s) (%s) %d" % (code, note, numbers(paper), numbers(wire), waiting)


def told(*values):
    return "told (%s)" % numbers(values)


def key_term(kind, value):
    return {"char": "(Char %d)" % value, "line": "Line", "command": "(Command %d)" % value}[kind]


def call_term(end, call, b, paper, wire):
    """A call as a term; b has its numbers, or a key's kind and number."""
    if end == "P":
        form = {"net": lambda: "PS.network %d" % b[0], "key": lambda: "PS.key %s" % key_term(*b),
                "ask": lambda: "PS.ask %d %d" % (b[0], b[1]), "suggest": lambda: "PS.suggest %d %d" % (b[0], b[1])}
        return "call (%s %d %d)" % (form[call](), paper, wire)
    form = {"net": lambda: "BS.network %d %d" % (b[0], paper), "ask": lambda: "BS.ask %d %d" % (b[0], b[1]),
            "suggest": lambda: "BS.suggest %d %d" % (b[0], b[1]), "order": lambda: "BS.order %d %d %d" % (b[0], b[1], b[2]),
            "define": lambda: "BS.define %d (%s)" % (b[0], numbers(b[1:])), "use": lambda: "BS.use_macro %d" % b[0],
            "text": lambda: "BS.text %s" % key_term(*b), "issue": lambda: "BS.issue %d" % b[0]}
    return "call (%s %d)" % (form[call](), wire)


# Lists as JSON lines


def from_json(path):
    calls = [json.loads(line) for line in open(path)]
    answers = [json.loads(line) for line in open(path[: -len(".jsonl")] + ".out")]
    if len(calls) != len(answers):
        raise BadList("%s: %d calls, %d answers" % (path, len(calls), len(answers)))
    listed = Listed(path)
    listed.fresh()
    for i, (c, a) in enumerate(zip(calls, answers)):
        if c.get("end") not in ("P", "B"):
            raise BadList('%s: line %d names the end %r; "P" and "B" are known' % (path, i + 1, c.get("end")))
        kind = c.get("call")
        fields = {"net": ["b"], "ask": ["opt", "way"], "suggest": ["opt", "v"], "order": ["cmd", "bc", "tc"], "use": ["x"], "issue": ["n"]}
        try:
            if kind in ("key", "text"):
                b = (("char", "line", "command")[c["kind"]], c.get("v", 0))
            elif kind == "define":
                b = [c["x"], *bytes.fromhex(c["text"])]
            else:
                b = [c[f] for f in fields[kind]]
            term = call_term(c["end"], kind, b, c.get("paper", ROOM["paper"]), c.get("wire", ROOM["wire"]))
        except (KeyError, IndexError):
            raise BadList("%s: line %d is no call: %s" % (path, i + 1, json.dumps(c)))
        listed.add(c["end"], term, shown(a["code"], a["note"], bytes.fromhex(a["paper"]), bytes.fromhex(a["wire"]), a["waiting"]), "call %d" % (i + 1))
    return listed


# Lists as text: docs/CALLS.md


def bytes_of(text):
    """Hex capitals, in any grouping; `*N` behind a byte for N of them."""
    found = []
    for item in re.findall(r"[0-9A-F]{2}(?:\*\d+)?|\S", text):
        if not re.fullmatch(r"[0-9A-F]{2}(\*[1-9]\d*)?", item):
            raise BadList("bytes are two hex capitals each")
        b, _, times = item.partition("*")
        found += [int(b, 16)] * int(times or 1)
    if len(found) > MOST:
        raise BadList("at most %d bytes to a line" % MOST)
    return found


def line_calls(line, room):
    """The end of a line, and for each call a term, or the name of a question."""
    words = line.split(None, 3)
    end, name = words[0], words[1] if len(words) > 1 else ""
    paper, wire = room
    if name == {"P": "key", "B": "text"}[end]:
        kind = words[2] if len(words) > 2 else ""
        b = bytes_of(" ".join(words[3:]))
        if kind == "char":
            return [call_term(end, name, (kind, v), paper, wire) for v in b]
        if (kind, len(b)) not in (("line", 0), ("command", 1)):
            raise BadList("a key is char with bytes, line, or command with one")
        return [call_term(end, name, (kind, b[0] if b else 0), paper, wire)]
    if name not in TAKES[end]:
        raise BadList("no such call at this end")
    b = bytes_of(line.split(None, 2)[2] if len(words) > 2 else "")
    if name == "net":
        return [call_term(end, name, [v], paper, wire) for v in b]
    if len(b) != TAKES[end][name] and not (name == "define" and b):
        raise BadList("this call takes another number of bytes")
    if name in QUESTIONS:
        return [" ".join([name, *("%d" % v for v in b)])]
    if name == "order":
        b = [b[0], 256 * b[1] + b[2], 256 * b[3] + b[4]]
    elif name == "issue":
        b = [256 * b[0] + b[1]]
    return [call_term(end, name, b, paper, wire)]


def report_numbers(text):
    """A report's words as numbers: for each of the four options who handles its character, and the value."""
    words = text.split()
    if len(words) != 2 * OPTIONS or any(w not in HANDLERS for w in words[::2]):
        raise BadList("no answer to report: %s" % text)
    return [n for who, value in zip(words[::2], words[1::2]) for n in (HANDLERS.index(who), int(value))]


def standing_numbers(text):
    """How a macro byte stands, as numbers: its status, the issue that its definition kept, the issue in force."""
    words = re.fullmatch(r"(.*) (\d+) (\d+)", text)
    if not words or words[1] not in STATUSES:
        raise BadList("no answer to status: %s" % text)
    return [STATUSES.index(words[1]), int(words[2]), int(words[3])]


def output_numbers(text):
    if text not in OUTPUTS:
        raise BadList("no answer to output: %s" % text)
    return [OUTPUTS.index(text)]


QUESTIONS = {"status": standing_numbers, "report": report_numbers, "output": output_numbers}


def answer_of(term, text, waiting):
    """An answer's line as a term, and how many keys wait after it."""
    name = term.split()[0]
    if name != "call":
        return told(*QUESTIONS[name](text)), waiting
    code, note, paper, wire, waiting = text.split()
    return shown(int(code), int(note), *(bytes.fromhex(h.replace("-", "")) for h in (paper, wire)), int(waiting)), int(waiting)


def examples(path):
    """The lines of each example, with their numbers; an empty line ends one."""
    found = [[]]
    for n, line in enumerate(open(path).read().splitlines(), 1):
        if line:
            found[-1].append((n, line))
        else:
            found.append([])
    return found


def answers_of(path, lines):
    """The answers of an example by line and call."""
    found = {}
    for n, line in lines:
        place = re.match(r"(\d+)\.(\d+) (.*)", line)
        if not place and not line.startswith("#"):
            raise BadList("%s: line %d is no answer" % (path, n))
        if place:
            found[int(place[1]), int(place[2])] = place[3]
    return found


def from_text(path):
    beside = path[: -len(".calls")] + ".answers"
    calls, answers = examples(path), examples(beside)
    heads = [[[l for _, l in e if l.startswith("#")] for e in part] for part in (calls, answers)]
    if heads[0] != heads[1]:
        raise BadList("%s has other examples than %s" % (beside, path))
    listed = Listed(path)
    for lines, given in zip(calls, answers):
        listed.fresh()
        add_example(listed, lines, answers_of(beside, given), beside)
    return listed


def add_example(listed, lines, answers, beside):
    room, line, waiting = (ROOM["paper"], ROOM["wire"]), 0, {"P": 0, "B": 0}
    for n, text in lines:
        try:
            if re.fullmatch(r"room +\d+ +\d+ *", text):
                room = tuple(int(w) for w in text.split()[1:])
                if room[0] > ROOM["paper"] or room[1] > ROOM["wire"]:
                    raise BadList("room takes two numbers, up to %d and %d" % (ROOM["paper"], ROOM["wire"]))
            elif text[0] in "PB" and text[1:2] == " ":
                line, end = line + 1, text[0]
                for i, term in enumerate(line_calls(text, room), 1):
                    quiet = "0 0 - - %d" % waiting[end] if term.startswith("call") else "none"
                    answer, waiting[end] = answer_of(term, answers.pop((line, i), quiet), waiting[end])
                    listed.add(end, term, answer, "line %d, call %d" % (n, i))
            elif text[0] != "#":
                raise BadList("a line begins with P, B, room or #, or is empty")
        except (BadList, ValueError) as why:
            raise BadList("%s: line %d: %s" % (listed.path, n, why))
    if answers:
        raise BadList("%s: no call has the answer %d.%d" % (beside, *min(answers)))


def read_list(path):
    for ending, reader in ((".jsonl", from_json), (".calls", from_text), (".tape", Tape), (".capture", Capture)):
        if path.endswith(ending):
            return reader(path)
    raise BadList("%s is none of NAME.calls, NAME.jsonl, NAME.tape and NAME.capture" % path)


def shipped():
    """The lists of the repository, its tapes that are not long, and its captures."""
    files = lambda *parts: sorted(glob.glob(os.path.join(ROOT, *parts)))
    tapes = [path for path in files("crates", "test_tapes", "data", "*.tape") if os.path.getsize(path) <= SHORT]
    captures = files("tests", "captures.d", "*.capture")
    return [os.path.relpath(path) for path in files("crates", "test_calls", "data", "*.calls") + tapes + captures]


# The rules alone


HEAD = """use mathlib.Core.Path.{◌≡◌, refl}
use mathlib.Core.List.{List, [], ◌∷◌, ◌++◌}
use Prim.Native.Nat.{ℕ}
use Rattle.keys.specs.declared.Key.TheVariants.{Char, Line, Command}
use Rattle.printer.specs.State as P
use Rattle.printer.specs.Session as PS
use Rattle.bulletin.specs.State as B
use Rattle.bulletin.specs.Session as BS
use Rattle.tape.specs.Running.{tape_output}
use Rattle.mending.specs.Mending.{mended, drops, lines_of}
use Rattle.%(crate)s.specs.Opened.{printer_rules, tape_rules}
use Rattle.%(crate)s.specs.OpenedBulletin.{bulletin_rules}
use Rattle.%(crate)s.specs.OpenedMending.{mending_rules}
use Rattle.%(crate)s.specs.Showing.{Shown, show, told, PrinterLine, BulletinLine, printer_lines, bulletin_lines, same_bytes, first_difference, bytes_difference}

""" % {"crate": CLAIMS}


def crates():
    """The crates in the order of crates.txt, with what each depends on."""
    lines = [l.split("#")[0] for l in open(os.path.join(ROOT, "crates.txt"))]
    return {n.split()[0]: d.split() for n, _, d in (l.partition(":") for l in lines) if n.strip()}


def rewritten(path, change):
    text = change(open(path).read())
    with open(path, "w") as out:
        out.write(text)


def copied(place):
    os.mkdir(place)
    shutil.copy(os.path.join(ROOT, "crates.txt"), place)
    shutil.copytree(os.path.join(ROOT, "crates"), os.path.join(place, "crates"), ignore=shutil.ignore_patterns("must-fail", "out"))


def without_functions(text):
    """A source without its functions, and without what brings them in: clauses' imports, and names in lower case."""
    def types(m):
        names = [n for n in re.findall(r"\w+", m[2]) if not n[0].islower()]
        return "%s::{%s};\n" % (m[1], ", ".join(names)) if names else ""
    return PASSED_ON.sub(types, GHOST.sub("", TRAIT.sub(r"\1{}\n", FUNCTION.sub("", text))))


def alone(place, kept=()):
    """The rules without functions and proofs, but for the laws of the kept crates."""
    copied(place)
    for name in crates():
        crate = os.path.join(place, "crates", name)
        proofs = os.path.join(crate, "proofs")
        for folder, _, files in list(os.walk(proofs)):
            if name not in kept or {"Answers.antt", "Invariants.antt"} & set(files):  # of a function
                shutil.rmtree(folder, ignore_errors=True)
        for file in os.listdir(os.path.join(crate, "src")):
            rewritten(os.path.join(crate, "src", file), without_functions)
        without_proved(os.path.join(crate, "specs"))
    without_proved(os.path.join(place, "crates", CLAIMS, "proofs"))


def without_proved(folder):
    """Takes away the files that cite proofs which are not there: claims about proofs, and laws that a type is given with theirs."""
    for path in glob.glob(os.path.join(folder, "*.antt")):
        if ABOVE.search(open(path).read()):
            file = os.path.basename(path)
            os.remove(path)
            rewritten(os.path.join(folder, "Lib.antt"), lambda text: text.replace("pub mod %s\n" % file[: -len(".antt")], ""))


def with_claims(place, lists, alone=False):
    """Puts the claims about the lists into the copy, beside others or alone; of each claim the list, and the session or what it prints."""
    about, texts = {}, []
    for n, listed in enumerate(lists):
        for name, text, session in listed.claims("-%d" % n):
            about[name] = (listed.path, session)
            texts.append(text)
    put_claims(place, texts, alone)
    return about


def put_claims(place, texts, alone):
    proofs = os.path.join(place, "crates", CLAIMS, "proofs")
    if alone:
        shutil.rmtree(proofs, ignore_errors=True)
    os.makedirs(proofs, exist_ok=True)
    with open(os.path.join(proofs, "Lists.antt"), "w") as out:
        out.write(HEAD + "".join(texts))
    with open(os.path.join(proofs, "Lib.antt"), "a") as out:
        out.write("mod Lists\n")


JOBS = 2  # of a check


def check(place, name):
    """Whether a crate passes, with those below it, and what the check says."""
    run = subprocess.run(["rt", "check", "--jobs", "%d" % JOBS], cwd=os.path.join(place, "crates", name), stdout=subprocess.PIPE, stderr=subprocess.STDOUT, text=True)
    if run.returncode not in (0, 1):
        raise SystemExit("rt check in %s: exit status %d\n%s" % (name, run.returncode, run.stdout[-2000:]))
    below = re.search(r"^rt: the library (\w+) did not build", run.stdout, re.M)
    return run.returncode == 0, HERE.sub("crates/%s/" % (below[1] if below else name), run.stdout)


def errors(output):
    """The declarations that are refused themselves, not for want of another: crate, specs or proofs, file, name, words."""
    found = {}
    for crate, part, file, name, words in ERROR.findall(output):
        if "was not admitted" not in words:
            found.setdefault((crate, part, file, name), words)
    return [(*key, words) for key, words in found.items()]


def is_listed(error):
    """Whether an error is one of a claim about a list."""
    return error[:3] == (CLAIMS, "proofs", "Lists")


def differences(output, about, locate=lambda session: None):
    """For each list that differs its path and the first places that do; locate finds one that the check does not tell."""
    found = {}
    for error in errors(output):
        if is_listed(error) and error[3] in about:
            path, session = about[error[3]]
            number = re.search(r"Path ℕ (\d+) 0", error[4])
            if isinstance(session, str):
                what = "byte %s of %s" % (number[1], session) if number else session
            elif number:
                what = session[1][int(number[1]) - 1][2]
            else:
                what = locate(session) or "the session from %s on" % session[1][0][2]
            found.setdefault(path, []).append(what)
    return found


def located(place, session):
    """The first call of a long session that differs, by halves: a refusal shows no number where computing that takes long."""
    end, calls = session
    agree, differ = 0, len(calls)
    while differ - agree > 1:
        middle = (agree + differ) // 2
        put_claims(place, [session_claim("-0", end, calls[:middle])], True)
        agree, differ = (middle, differ) if check(place, CLAIMS)[0] else (agree, middle)
    return calls[differ - 1][2]
