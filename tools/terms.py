"""Plans and what a run of them writes, read as terms of the definitions. tools/rows.py writes the files."""
import re

TOKEN = re.compile(r'\s*("(?:[^"\\]|\\.)*"|\d+(?:\.\d+)+|\d+|\w+|==|!=|<=|>=|\+\+|.)')

# ---- terms

def arg(term):
    """A term as an argument."""
    return f"({term})" if " " in term else term

def call(head, *terms):
    return " ".join([head] + [arg(t) for t in terms])

def items(terms):
    return " ∷ ".join(list(terms) + ["[]"])

def record(**fields):
    return "record { " + "; ".join(f"{name} = {term}" for name, term in fields.items()) + " }"

def pair(a, b):
    return f"({a}, {b})"

def integer(n):
    return f"pos {n}" if n >= 0 else f"negsuc {-n - 1}"

def codes(text):
    return f'codes "{text}"'

def quoted(token):
    """The bytes of a quoted text."""
    text = re.sub(r"\\(.)", lambda m: "\n" if m[1] == "n" else m[1], token[1:-1])
    plain = text.isascii() and text.isprintable() and not set(text) & set('"\\')
    return codes(text) if plain else f"({items(map(str, text.encode()))})"

def listed(terms):
    """A list, a term a line, as the body of a definition."""
    return "\n" + "".join(f"    {term} ∷\n" for term in terms) + "    []" if terms else " []"

def fielded(fields):
    """A record, a field a line, as the body of a definition."""
    return " record {\n" + "".join(f"  {name} = {term};\n" for name, term in fields.items()) + "}"

def definition(name, kind, body):
    return f"\nabbrev pub {name} : {kind}\n{name} ={body}\n"

# ---- tokens of a line

class Line:
    def __init__(self, text):
        self.tokens = TOKEN.findall(text)

    def peek(self):
        return self.tokens[0] if self.tokens else ""

    def take(self):
        return self.tokens.pop(0)

    def has(self, token):
        if self.peek() != token:
            return False
        self.take()
        return True

    def want(self, *tokens):
        for token in tokens:
            assert self.has(token), (token, self.tokens)

    def number(self):
        return self.take()

    def text(self):
        return quoted(self.take())

    def name(self):
        return codes(self.take())

    def path(self):
        return items(self.take().split("."))

    def sent(self):
        shard, local = self.take().split(".")
        return call("sent", shard, local)

    def integer(self):
        return integer(-int(self.take()) if self.has("-") else int(self.take()))

    def value(self):
        if self.has("none"):
            return "Nothing"
        if self.peek().startswith('"'):
            return call("Text", self.text())
        return call("Int", self.integer())

    def outcome(self):
        if self.has("trap"):
            return call("Trap", "trap." + self.take().capitalize())
        self.want("value")
        return call("Good", self.value())

    def many(self, one, close=""):
        """What stands between commas, up to the closing token or the line's end."""
        found = []
        while self.peek() != close:
            found.append(one())
            if not self.has(","):
                break
        if close:
            self.want(close)
        return items(found)

    def call(self, one):
        """A function's name, and the list between its parentheses."""
        name = self.take()
        self.want("(")
        return name, self.many(one, ")")

    def given(self, separator="="):
        """A name and a value."""
        name = self.text()
        self.has(separator)
        return pair(name, self.value())

# ---- expressions, by the level of their operators

LEVELS = [
    {"or": "Or"}, {"and": "And"}, {}, {"==": "Eq", "!=": "Ne", "<=": "Le", ">=": "Ge", "<": "Lt", ">": "Gt"},
    {"+": "Add", "-": "Sub", "++": "Glue"}, {"*": "Mul", "/": "Div", "%": "Rem"},
]

def expression(line, level=0):
    if level == len(LEVELS):
        return atom(line)
    if level == 2 and line.has("not"):
        return call("expr.Not", expression(line, 2))
    left = expression(line, level + 1)
    while line.peek() in LEVELS[level]:
        operator = LEVELS[level][line.take()]
        left = call("expr.Two", "op." + operator, left, expression(line, level + 1))
    return left

def atom(line):
    token = line.peek()
    if line.has("("):
        inner = expression(line)
        line.want(")")
        return inner
    if token in ("text", "len"):
        line.take()
        line.want("(")
        inner = expression(line)
        line.want(")")
        return call("expr.TextOf" if token == "text" else "expr.Len", inner)
    if line.has("none"):
        return "expr.Nothing"
    if token.startswith('"'):
        return call("expr.Text", line.text())
    if token == "-" or token.isdigit():
        return call("expr.Int", line.integer())
    return call("expr.Var", line.name())

# ---- statements and functions

def sides(line, left):
    first = left()
    line.want("=")
    return pair(first, expression(line))

def statement(text):
    line = Line(text)
    e = lambda: expression(line)
    word = line.take()
    if word in ("else", "end"):
        return "stmt." + word.capitalize()
    if word in ("if", "while", "return"):
        return call("stmt." + word.capitalize(), e())
    if word in ("write", "push"):
        first = e()
        line.want(",")
        return call("stmt." + word.capitalize(), first, e())
    if word == "begin":
        return call("stmt.Begin", line.many(lambda: sides(line, line.name)))
    if word == "read":
        line.want("all")
        return call("stmt.ReadAll", line.many(lambda: sides(line, line.name)))
    assert word == "let", text
    variable = line.name()
    line.want("=")
    if line.peek() in ("read", "join", "pop"):
        return call("stmt." + line.take().capitalize(), variable, e())
    if line.has("spawn"):
        name, terms = line.call(e)
        return call("stmt.Spawn", variable, codes(name), terms)
    if line.has("commit"):
        return call("stmt.Commit", variable, line.many(lambda: sides(line, e)))
    return call("stmt.Let", variable, e())

class Function:
    def __init__(self, head, body):
        line = Line(head)
        line.want("function")
        self.name, self.params = line.call(line.name)
        self.lines = [statement(text) for text in body]

    def text(self):
        """Its lines and the function, as two definitions."""
        lines = definition(f"{self.name}_lines", "List Stmt", listed(self.lines))
        whole = record(name=codes(self.name), params=self.params, lines=f"{self.name}_lines")
        return lines + definition(f"{self.name}_function", "Function", f" {whole}")

# ---- events

def event(text, functions):
    line = Line(text)
    word, n = line.take(), line.number
    head = "event." + {"endswitch": "EndSwitch", "trimtag": "TrimTag", "setaux": "SetAux", "getaux": "GetAux"}.get(word, word.capitalize())
    if word in ("cut", "sync"):
        return head
    if word == "submit":
        engine, request = n(), n()
        name, args = line.call(line.value)
        return call(head, engine, request, str(functions.index(name)), args)
    first = n()
    if word == "copy":
        return call(head, first, n(), n())
    if word == "start":
        return call(head, first, line.path(), n())
    if word == "switch":
        return call(head, first, line.take())
    if word in ("append", "cond"):
        place = [n()] if word == "cond" else []
        tags = [call("tag", n())]
        while line.has(","):
            tags.append(call("tag", n()))
        return call(head, first, *place, items(tags), line.text())
    if word in ("next", "prev", "trimtag"):
        return call(head, first, call("tag", n()), call("seqnum", n()))
    if word == "tail":
        return call(head, first, call("tag", n()))
    if word == "settled":
        return call(head, first, *line.take().split("."))
    if word == "setaux":
        return call(head, first, call("seqnum", n()), line.text())
    if word == "getaux":
        return call(head, first, call("seqnum", n()))
    assert not line.tokens, text
    return call(head, first)

# ---- answers

STEPS = {"send", "adopt", "over", "waits", "put", "late", "store", "read", "stopped"}

def answer(text, by_step, event_word, functions):
    line = Line(text)
    word = line.peek()
    if by_step and word in STEPS | {"idle"}:
        return call("line.Step", step_line(line, functions))
    if word.isdigit() or (word.startswith('"') and event_word != "getaux"):
        return call("line.Found", call("seqnum", line.take()), line.text())
    if word.startswith('"'):
        return call("line.Aux", line.text())
    line.take()
    if word == "sent":
        at = line.sent()
        return call("line.Trimmed", at, call("seqnum", line.number())) if line.has("trim") else call("line.Sent", at)
    if word == "cut":
        return call("line.Cut", line.number(), line.number())
    if word in ("placed", "taken"):
        return call("line." + word.capitalize(), call("seqnum", line.number()))
    if word in ("copied", "at", "sync", "restarted"):
        return call("line." + word.capitalize(), line.number())
    if word == "floor":
        low = call("seqnum", line.number())
        line.want("held")
        return call("line.Floor", low, line.number())
    if word == "missed":
        return call("line.Missed", "miss." + line.take().capitalize())
    if word == "idle" and event_word == "miss":
        return call("line.Missed", "miss.Idle")
    if word == "unfinished":
        return call("line.Unfinished", line.path())
    return "line." + {"none": "Absent"}.get(word, word.capitalize())

def step_line(line, functions):
    word = line.take()
    values = lambda: line.many(line.given)
    texts = lambda: line.many(line.text)
    if word == "idle":
        return "step.Idle"
    if word == "over":
        return call("step.Over", line.outcome())
    if word == "stopped":
        return "step.StoppedGone"
    if word == "waits":
        what = line.take()
        return call("step.WaitsJoin", line.path()) if what == "join" else "step.Waits" + what.capitalize()
    if word == "read" and line.has("all"):
        return call("step.ReadAll", values())
    if word in ("read", "store"):
        return call("step." + word.capitalize(), line.text(), line.value())
    if word == "late":
        return call("step.Late", line.text())
    if word == "put":
        key, value = line.text(), line.value()
        line.want("at")
        cursor, k = line.take().split(".")
        return call("step.Put", key, value, call("seqnum", cursor), k)
    at = line.sent() if word == "send" else call("seqnum", line.number())
    what = line.take()
    head = f"step.{word.capitalize()}{what.capitalize()}"
    if what == "read" and line.has("all"):
        return call(head + "All", at, texts() if word == "send" else values())
    if what == "init":
        return call(head, at) if word == "send" else call(head, at, line.take())
    if what == "finish":
        return call(head, at, line.outcome())
    if what == "spawn":
        path = line.path()
        if word == "adopt":
            return call(head, at, path)
        name, args = line.call(line.value)
        return call(head, at, path, str(functions.index(name)), args)
    if what == "join":
        return call(head, at, line.path()) if word == "send" else call(head, at, line.path(), line.outcome())
    if what == "begin":
        return call(head, at, texts() if word == "send" else values())
    if what == "commit":
        return call(head, at, values()) if word == "send" else call(head, at, {"1": "true", "0": "false"}[line.take()])
    key = line.text()
    if head == "step.SendWrite":
        return call(head, at, key, call("Some", line.value()) if line.tokens else "None")
    return call(head, at, key, line.value()) if line.tokens else call(head, at, key)

def report(rows, functions):
    turns, results, objects, queues, stores = [], [], [], [], []
    for text in rows:
        line = Line(text)
        word = line.take()
        if word == "turn":
            turns.append(turn(line, functions))
        elif word == "result":
            results.append(pair(line.path(), line.outcome()))
        elif word == "object":
            objects.append(line.given(""))
        elif word == "queue":
            name = line.text()
            line.want("[")
            queues.append(pair(name, line.many(line.value, "]")))
        else:
            stores.append(line.given(""))
    return dict(turns=items(turns), results=items(results), objects=items(objects), queues=items(queues), stores=items(stores))

def turn(line, functions):
    word = line.take()
    if word == "submit":
        request = line.number()
        name, args = line.call(line.value)
        return call("turn.Submit", request, str(functions.index(name)), args)
    path = line.path()
    return call("turn.Go", path, line.number()) if word == "go" else call("turn.End", path)

# ---- a plan and its output

class Example:
    def __init__(self, source):
        self.name = source.stem
        self.module = "".join(part.capitalize() for part in self.name.split("_"))
        rows = [row.strip() for row in source.read_text().splitlines()]
        self.shows = rows[0].lstrip("# ")
        rows = [row for row in rows if row and not row.startswith("#")]
        cut = rows.index("events")
        self.head(rows[:cut])
        self.events = [event(row, self.names) for row in rows[cut + 1:]]
        self.output(source.with_suffix(".out").read_text().splitlines(), [row.split()[0] for row in rows[cut + 1:]])

    def head(self, rows):
        line = Line(rows[0])
        line.want("setup")
        shards, replicas, engines, mode = line.take(), line.take(), line.take(), line.take()
        newer = call("Some", line.take()) if line.tokens else "None"
        self.setup = record(shards=shards, replicas=replicas, engines=engines, mode=mode, newer=newer)
        self.objects, self.functions = [], []
        rows = rows[1:]
        while rows and rows[0].startswith("object"):
            line = Line(rows.pop(0))
            line.want("object")
            self.objects.append(line.given(""))
        while rows:
            end = next((i for i, row in enumerate(rows) if row.startswith("function") and i > 0), len(rows))
            self.functions.append(Function(rows[0], rows[1:end - 1]))
            rows = rows[end:]
        self.names = [f.name for f in self.functions]

    def output(self, rows, words):
        cut = rows.index("report")
        answers = [row.split(" ", 1)[1] for row in rows[:cut]]
        assert len(answers) == len(words)
        self.lines = [answer(text, word == "step", word, self.names) for text, word in zip(answers, words)]
        self.report = report(rows[cut + 1:-1], self.names)
