"""Random sessions as lemmas over the definitions; see `run`."""
import argparse, collections, os, random, re, subprocess, sys
import core, replay, scripts

words = argparse.ArgumentParser(prog="bench/sessions/run")
words.add_argument("--seed", type=int, default=1)
words.add_argument("--count", type=int, default=40)
words.add_argument("--controls", type=int, default=10)
words.add_argument("--jobs", type=int, default=2)
asked = words.parse_args()

FOLDER = "crates/pf_journal/proofs"
TENANTS = ("acme", "beta", "gamma")
# a query, and its tree or its refusal
QUERIES = {
    'up': "lawful any_up",
    'up{job="a"}': "lawful up",
    'vector(1)': "lawful vector_1",
    'scalar(up{job="a"})': "lawful scalar_up",
    '1 / 0': "lawful by_zero",
    'up / on () up': "lawful on_nothing",
    'sum(': "refused (of_grammar (unexpected 4))",
}


def quoted(text):
    return 'codes "%s"' % text.replace("\\", "\\\\").replace('"', '\\"').replace("\n", "\\n")


def listed(items):
    return "(" + "".join(it + " ∷ " for it in items) + "[])"


def chained(items, last="tt"):
    for it in reversed(items):
        last = "(%s, %s)" % (it, last)
    return last


# ---- a random session

class Page:
    """Lines of a name, at most a label, a whole number and a time."""

    def __init__(self, rng):
        self.rows = [(rng.choice(("up", "up", "up a", "x")), rng.randrange(10), 60000 * rng.randrange(1, 40))
                     for _ in range(rng.randrange(1, 4))]

    def text(self):
        return "".join("%s %d %d\n" % ('up{job="a"}' if n == "up a" else n, v, t) for n, v, t in self.rows)

    def row(self, row):
        name, value, time = row
        labels = "up_a" if name == "up a" else "(named (codes \"%s\"))" % name
        return "row %s %d (pos %d)" % (labels, time, value * 1000000)

    def batch(self):
        return "batch " + listed(self.row(it) for it in self.rows)

    def gives(self):
        given = []
        for name, value, time in self.rows:
            if name == "up a":
                given.append('row_given (codes "up") (labelled [] (exposition.full (record { before = []; name = codes "job"; before_sign = []; '
                             'behind_sign = []; value = codes "a"; behind = [] }) [] None) (codes " ")) (codes "%d") (codes "%d") up_a %d '
                             '(pos %d) refl (refl, ((record { before = refl; name = refl; before_sign = refl; behind_sign = refl; value = '
                             '(codes "a", (refl, refl)); behind = refl }, (tt, tt)), refl)) refl refl refl' % (value, time, time, value * 1000000))
            else:
                given.append('row_given (codes "%s") (bare (codes " ")) (codes "%d") (codes "%d") (named (codes "%s")) %d (pos %d) '
                             'refl refl refl refl refl' % (name, value, time, name, time, value * 1000000))
            given[-1] += ' (number_read (codes "%d") (pos %d) refl (lit≤ tt) (lit≤ tt) refl) refl (lit≤ tt)' % (value, value * 1000000)
        return "record { short = lit≤ tt; gives = record { each = %s; given = %s; rows = refl; skipped = refl; few = lit≤ tt; }; }" % (
            listed("sample (%s)" % self.row(it) for it in self.rows), chained(given))


def script_lines(rng, pages, stepped, length):
    """The lines of one client's script."""
    lines, asks, answered, kept = [], [], set(), set()
    workers = (0, 1)
    while len(lines) < length:
        kind = rng.choice(("ingest",) * 4 + ("ask",) * 5 + ("instant",) * 2 + ("answer",) * 4 + ("cancel",) * 2 + ("delete",) * 2
                          + (("plan",) * 3 + ("take",) * 5 + ("done",) * 5 + ("keep",) * 2 if stepped else ()))
        who = rng.choice(TENANTS[:2] if rng.random() < 0.9 else TENANTS)
        if kind == "ingest":
            lines.append("ingest %s %s" % (who, rng.choice(sorted(pages))))
        elif kind == "delete":
            start = 60000 * rng.randrange(0, 40)
            lines.append("delete %s %d %d %s" % (who, start, start + 60000 * rng.randrange(-1, 20), rng.choice(("up", "x")))
                         if rng.random() < 0.9 else "delete %s 0 4398046511104 up" % who)
            if " -" in lines[-1]:
                lines.pop()
        elif kind in ("ask", "instant"):
            name, query, start = "q%d" % len(asks), rng.choice(sorted(QUERIES)), 60000 * rng.randrange(0, 40)
            asks.append(name)
            if kind == "instant":
                lines.append("instant %s %s %d %s" % (name, who, rng.choice((start, start + 1, 4398046511104)), query))
            else:
                lines.append("ask %s %s %d %d %d %s" % (name, who, start, start + 60000 * rng.randrange(-1 if start else 0, 4),
                                                        rng.choice((60000, 60000, 120000, 0)), query))
        elif kind == "take" or kind == "done":
            lines.append("%s %d" % (kind, rng.choice(workers)))
        else:
            open_ids = [it for it in asks if it not in answered]
            some = asks if kind == "cancel" else open_ids
            if not some:
                continue
            name = rng.choice(some)
            if kind == "cancel":
                lines.append("cancel %s %s" % (name, who))
            elif kind == "answer":
                answered.add(name)
                lines.append("answer " + name)
            elif kind == "plan":
                lines.append("plan " + name)
            elif name not in kept:
                kept.add(name)
                lines.append("keep " + name)
    return lines


class Client(replay.Client):
    """Runs a line at a time, and notes of each what a proof needs."""

    def begin(self):
        self.at, self.done, self.why, self.replies = 0, [], "at_end", []

    def step(self):
        number, line = self.script.lines[self.at]
        self.at += 1
        self.by = (self.number, number)
        before = len(self.core.entries)
        asked_of = self.queries.get(line[1]) if line[0] in ("cancel", "answer", "plan", "keep") else None
        note = dict(number=number, line=line, before=before, cancelled=bool(asked_of and asked_of.stop and asked_of.stop[0] == "cancelled"),
                    open=bool(asked_of and asked_of.place in self.core.open), query=asked_of)
        try:
            reply = getattr(self, "do_" + line[0])(*line[1:])
        except replay.JournalFull as full:
            reply, self.why, note["front"] = full.args[0], "at_full", before
            self.at = len(self.script.lines)
        self.replies.append("%d %s" % (number, reply))
        note["reply"], note["entry"] = reply, len(self.core.entries) > before
        self.done.append(note)


class Session:
    def __init__(self, seed):
        self.seed, rng = seed, random.Random(seed)
        many = rng.randrange(2, 5) if seed % 10 < 3 else 1
        stepped = many == 1 and rng.random() < 0.6
        self.pages = {"p%d" % i: Page(rng) for i in range(rng.randrange(1, 4))}
        self.outstanding, self.journal = rng.choice((1, 2, 3, 100)), rng.choice((4000000, 4000000, 4000000, 4, 7, 10))
        texts = ["".join(it + "\n" for it in script_lines(rng, self.pages, stepped, rng.randrange(4, 15 if many == 1 else 9)))
                 for _ in range(many)]
        self.core = core.Core(core.Limits(outstanding=self.outstanding, journal=self.journal))
        files = {name: page.text().encode() for name, page in self.pages.items()}
        failing = lambda: replay.Hop([n for n in range(1, 12) if rng.random() < bad])
        bad = rng.choice((0, 0, 0.3, 0.9))
        self.clients = [Client(self.core, i, scripts.read_script(text.encode(), True), files, {k: failing() for k in (None, 0, 1)})
                        for i, text in enumerate(texts)]
        self.whats = []
        for it in self.clients:
            it.begin()
        while True:
            left = [it for it in self.clients if it.at < len(it.script.lines)]
            if not left:
                break
            rng.choice(left).step()
        sections = [["client %d" % it.number] + it.replies for it in self.clients]
        self.report = replay.report(self.core, sections)
        self.names = [it.name for it in self.core.tenants]

    # -- the data of its lemmas
    def line(self, client, note):
        verb, *rest = note["line"]
        if verb == "ingest":
            return "script.ingest (codes \"%s\") (codes \"%s\") %d" % tuple(rest)
        if verb == "delete":
            return "script.delete (codes \"%s\") %d %d (%s)" % (rest[0], rest[1], rest[2], quoted(rest[3]))
        if verb == "ask":
            return "script.ask (codes \"%s\") (codes \"%s\") %d %d %d (%s)" % (*rest[:5], quoted(rest[5]))
        if verb == "instant":
            return "script.instant (codes \"%s\") (codes \"%s\") %d (%s)" % (*rest[:3], quoted(rest[3]))
        if verb in ("take", "done"):
            return "script.%s %d" % (verb, rest[0])
        asked_at = next(n for n, w in client.script.lines if w[0] in ("ask", "instant") and w[1] == rest[0])
        tenant = " (codes \"%s\")" % rest[1] if verb == "cancel" else ""
        return "script.%s (codes \"%s\") %d%s" % (verb, rest[0], asked_at, tenant)

    def told(self, note):
        verb, reply = note["line"][0], note["reply"]
        end = reply.split("\n")[0].split(" ")
        if reply.endswith("journal full"):
            return "journal_full"
        stop = lambda w: "(by_cancel %s)" % w[1] if w[0] == "cancelled" else "(by_tries %s)" % w[1]
        if verb == "answer":
            if end[2] == "waiting":
                return "waiting " + end[3]
            if end[2] == "500":
                return "failed_five " + re.search(r"job (\d+) failed", reply).group(1)
        if verb == "plan":
            return "of_plan " + {"refused": "plan_refused", "planned": "planned_before", "stopped": "plan_stopped"}.get(
                end[2], "(planned %s %s)" % (end[3], end[5]) if len(end) > 5 else "")
        if verb == "take":
            return "of_take " + {"busy": "busy", "none": "none_waits"}.get(
                end[2], "(took %s %s %s %s %s)" % tuple(end[i] for i in (4, 6, 8, 10, 12)) if len(end) > 12 else "")
        if verb == "done":
            rest = end[2:]
            if rest[0] == "gone":
                return "of_done (gone %s)" % stop(rest[1:])
            return "of_done " + {"empty": "empty", "stored": "stored", "not": "not_held"}.get(rest[0], "(%s %s)" % (rest[0], rest[-1]))
        if verb == "keep":
            rest = end[2:]
            return "of_keep " + {"refused": "keep_refused", "stopped": "keep_stopped", "unplanned": "unplanned", "failed": "keep_failed"}.get(
                rest[0], "(%s %s)" % ({"steps": "kept", "outdated": "outdated", "waiting": "keep_waits"}.get(rest[0]), rest[-1]))
        return "nothing"

    def entry(self, place):
        client, line, text = self.core.entries[place]
        w = text.split(" ")
        note = next(it for it in self.clients[client].done if it["number"] == line)
        number = lambda name: self.names.index(name)
        if w[0] == "append":
            page = self.pages[note["line"][2]]
            verdicts = ["taken"] * len(page.rows)
            taken, repeated = (int(it) for it in re.search(r"taken (\d+) repeated (\d+)", note["reply"]).groups())
            for at, kind, value in re.findall(r"\n  sample (\d+) (differs|too_old) (\S+)", note["reply"]):
                verdicts[int(at)] = "too_old %s" % value if kind == "too_old" else "differs (pos %d)" % (int(value) * 1000000)
            if repeated:
                self.repeat(note, page, verdicts, repeated)
            self.verdicts[place] = [it.split(" ")[0] for it in verdicts]
            what = "append %d (%s) %s %s" % (number(w[1]), page.batch(), listed("(%s)" % it for it in verdicts), w[3])
        elif w[0] == "delete":
            matcher = 'equal (codes "__name__") (codes "%s")' % note["line"][4]
            what = "delete %d (%s ∷ []) %d %d %s %s" % (number(w[1]), matcher, note["line"][2], note["line"][3], w[5], w[3])
        elif w[0] == "ask":
            floor = "None" if w[7] == "none" else "(Some %s)" % w[7]
            query = self.core.asks[place]
            grid, instant = query.asked.grid, "true" if query.asked.instant else "false"
            times = list(grid.times())
            data = "(grid %d %d %d)" % (times[0], 0 if query.asked.instant else grid.step, len(times))
            tree = QUERIES[note["line"][-1]].split(" ")[1]
            what = "ask %d (asked_over %s %s %s) %s %s %s" % (number(w[1]), instant, data, tree, w[3], w[5], floor)
        elif w[0] == "full":
            what = "full %d %s" % (number(w[1]), w[3])
        elif w[0] == "cancel":
            what = "cancel " + w[1]
        else:
            query = self.core.asks[int(w[1])]
            what = "answer %s %s %d %d" % (w[1], w[2], query.cached_count, query.evaluated_count)
        return "record { client = %d; line = %d; what = %s }" % (client, line, what)

    def repeat(self, note, page, verdicts, repeated):
        """Which rows repeat: those whose sample was there before, in the log's order."""
        place = note["before"]
        stored = {}
        for other in range(place):
            c, l, text = self.core.entries[other]
            if text.startswith("append " + note["line"][1] + " "):
                n = next(it for it in self.clients[c].done if it["number"] == l)
                for (name, value, time), verdict in zip(self.pages[n["line"][2]].rows, self.verdicts[other]):
                    if verdict == "taken":
                        stored[name, time] = value
            elif text.startswith("delete " + note["line"][1] + " "):
                n = next(it for it in self.clients[c].done if it["number"] == l)
                stored = {k: v for k, v in stored.items()
                          if not (k[0].split(" ")[0] == n["line"][4] and n["line"][2] <= k[1] <= n["line"][3])}
        for i, (name, value, time) in enumerate(page.rows):
            if verdicts[i] == "taken":
                if stored.get((name, time)) == value:
                    verdicts[i] = "repeated"
                else:
                    stored[name, time] = value
        assert verdicts.count("repeated") == repeated, self.seed

    # -- the proofs
    def allowed(self, place):
        client, line, text = self.core.entries[place]
        kind = text.split(" ")[0]
        tenant = "tenant = record { next = lit≤ tt; most = lit< tt }"
        if kind == "append":
            return "record { %s; judged = refl; counted = refl }" % tenant
        if kind == "delete":
            return "record { %s; aged = refl; counted = refl }" % tenant
        if kind == "ask":
            return "record { %s; below = lit< tt; pinned = refl; aged = refl; floored = refl }" % tenant
        if kind == "full":
            return "record { known = lit< tt; counted = refl; most = refl }"
        if kind == "cancel":
            return "refl"
        query = self.core.asks[int(text.split(" ")[1])]
        code = text.split(" ")[2]
        coded = {"503": "refl", "500": "inr (inl refl)"}.get(code, "inl refl")
        stepped = "inl refl" if query.planned else "inr (refl, inl refl)"
        at_once = "λ h. refl" if query.cached_count == 0 else "λ h. cc"
        return "record { coded = %s; stepped = %s; reused = record { at_once = %s; frozen = lit≤ tt } }" % (coded, stepped, at_once)

    def matched(self, note):
        line, reply = note["line"], note["reply"]
        verb = line[0]
        opened = "record { query = tt; unanswered = refl; uncancelled = refl }"
        if note["entry"]:
            if verb == "ingest":
                return "((refl, %s_gives_%d), refl)" % (line[2], self.seed)
            if verb == "delete":
                return "((refl, ((lit≤ tt, lit≤ tt), %s_selects, refl, refl)), refl)" % line[4]
            if verb in ("ask", "instant"):
                return "((refl, %s), refl)" % ("tt" if "refused 429" in reply else "refl")
            if verb == "cancel":
                return "((refl, refl), refl)"
            return "(refl, %s)" % ("tt" if reply.split("\n")[0].split(" ")[2] == "500" else "refl")
        if reply.endswith("journal full"):
            return {"ingest": "(%s, %s_gives_%d)" % (self.pages[line[2]].batch() if verb == "ingest" else "", line[2], self.seed),
                    "delete": "((lit≤ tt, lit≤ tt), (equal (codes \"__name__\") (codes \"%s\") ∷ [], %s_selects))" % (line[-1], line[-1])}.get(verb, "tt")
        if verb == "delete":
            return "inl (lit< tt)" if line[3] < line[2] else "inr (inl (lit< tt))"
        if verb == "cancel":
            if note["query"] is None:
                return "λ p. p.0.query"
            if "other tenant" in reply:
                return 'λ p. differ (bytes_eq (codes "%s")) _ _ refl refl p.1' % line[2]
            return "λ p. differ is_none _ _ refl refl (sym p.0.%s)" % ("uncancelled" if note["open"] else "unanswered")
        if verb == "answer" and " waiting " in reply:
            return "record { opened = %s; counted = refl; some = lit< tt }" % opened
        if verb == "take" and " query " in reply:
            return "(refl, %s)" % opened
        return "refl" if verb in ("take", "done") else "tt"

    def woven(self, client):
        own = [it for it in client.done if it["entry"]]
        numbers = [it["number"] for it in client.done]
        lined = ["inr (" * numbers.index(it["number"]) + "inl refl" + ")" * numbers.index(it["number"]) for it in own]
        each = ["record { matched = %s; roomy = %s }" % (self.matched(it), "lit≤ tt" if it["entry"] else "tt") for it in client.done]
        runs = "(refl, refl)"
        if client.why == "at_full":
            front = client.done[-1]["front"]
            behind = ["λ e. differ (nat_eq %d) _ _ refl refl e" % c for c, _, _ in self.core.entries[front:]]
            runs = "(refl, refl, record { front = %d; has_all = %s; over = lit< tt })" % (front, chained(behind))
        return "record { woven = record { few = lit≤ tt; rising = %s; lined = %s; each = %s }; runs = %s }" % (
            chained(["lit< tt"] * len(own)), chained(lined), chained(each), runs)

    def lemmas(self, change=None):
        """Its data and its lemmas, with one thing changed if asked."""
        n, out = self.seed, []
        say = lambda name, kind, value: out.append("abbrev %s_%d : %s\n%s_%d =\n    %s\n" % (name, n, kind, name, n, value))
        self.verdicts = {}
        entries = []
        for place in range(len(self.core.entries)):
            entries.append(self.entry(place))
        told = [[self.told(it) for it in client.done] for client in self.clients]
        report = self.report
        if change:
            entries, told, report = change(entries, told, report)
        for name, page in sorted(self.pages.items()):
            out.append("%s_gives_%d : Gives (%s) 0 (%s)\nunfolding clamp encode_utf8\n%s_gives_%d = %s\n" % (name, n, quoted(page.text()), page.batch(), name, n, page.gives()))
        files = listed("(%s, %s)" % (quoted(name), quoted(page.text())) for name, page in sorted(self.pages.items()))
        limits = "record { outstanding = %d; window = 600000; interval = 86400000; shards = 4; extents = 256; journal = %d }" % (self.outstanding, self.journal)
        say("known", "Known", "record { limits = %s; names = %s; files = files_of %s; refused = []; readings = with_any }" % (limits, listed(quoted(it) for it in self.names), files))
        say("journal", "List Entry", listed("(%s)" % it for it in entries))
        say("scripts", "List (List Numbered)", listed(listed("line %d (%s)" % (number, self.line(client, dict(line=w))) for number, w in client.script.lines) for client in self.clients))
        failed = [self.core.failed.get(i, 0) for i in range(32)]
        say("rest", "Rest", "record { clients = %s; failed = %s }" % (
            listed("record { told = %s; why = %s }" % (listed("(%s)" % it for it in t), c.why) for t, c in zip(told, self.clients)), listed(map(str, failed))))
        arguments = "known_%d journal_%d scripts_%d rest_%d" % (n, n, n, n)
        legal = chained(["record { allowed = %s; room = lit≤ tt; named = lit≤ tt }" % self.allowed(i) for i in range(len(self.core.entries))])
        out.append("session_%d : IsSession %s\nunfolding clamp digits\nsession_%d = (%s, (%s, record { actors = lit≤ tt; five = inr (lit≤ tt); shown = lit≤ tt }))\n" % (
            n, arguments, n, legal, chained([self.woven(it) for it in self.clients])))
        out.append("nobody_else_%d : Each (λ e. e.client < length scripts_%d) journal_%d\nnobody_else_%d = %s\n" % (
            n, n, n, n, chained(["lit< tt"] * len(self.core.entries))))
        out.append("report_%d : report %s ≡ %s\nunfolding digits escape_byte clamp\nreport_%d = refl\n" % (n, arguments, quoted(report), n))
        return "\n".join(out)


HEAD = open(os.path.join(os.path.dirname(os.path.abspath(__file__)), "head.txt")).read()


def changed(rng):
    """A change by which a session is none: of an entry's number, of what was told, or of the report."""
    def change(entries, told, report):
        entries, told = list(entries), [list(it) for it in told]
        numbers = [(i, m) for i, it in enumerate(entries) for m in re.finditer(r"(?<=what = )(append|delete|ask|full|answer|cancel) .*", it)]
        kind = rng.choice(("entry", "told", "report"))
        if kind == "entry" and numbers:
            i, m = rng.choice(numbers)
            last = list(re.finditer(r"\b\d+\b", m.group(0)))[-1]
            at = m.start() + last.start()
            entries[i] = entries[i][:at] + str(int(last.group(0)) + 1) + entries[i][m.start() + last.end():]
            return entries, told, report
        some = [(c, i) for c, t in enumerate(told) for i, it in enumerate(t)]
        if kind == "told" and some:
            c, i = rng.choice(some)
            told[c][i] = "waiting 9" if told[c][i] != "waiting 9" else "nothing"
            return entries, told, report
        at = rng.choice([i for i, it in enumerate(report) if it.isdigit()])
        return entries, told, report[:at] + str((int(report[at]) + 1) % 10) + report[at + 1:]
    return change


def write(name, texts):
    open("%s/%s.antt" % (FOLDER, name), "w").write(HEAD + "\n".join(texts))


library = open(FOLDER + "/Lib.antt").read()
for file, lemmas in (("Pages", ("number_read", "row_given")), ("WorkedCaches", ("up_selects",))):
    text = open("%s/%s.antt" % (FOLDER, file)).read()
    for lemma in lemmas:
        text = text.replace("\n%s :" % lemma, "\npub %s :" % lemma)
    open("%s/%s.antt" % (FOLDER, file), "w").write(text)

names, each = [], 10
for first in range(0, asked.count, each):
    sessions = [Session(asked.seed + i) for i in range(first, min(asked.count, first + each))]
    names.append("Random%d" % (first // each))
    write(names[-1], [it.lemmas() for it in sessions])
for k in range(asked.controls):
    names.append("Control%d" % k)
    it = Session(asked.seed + k)
    write(names[-1], [it.lemmas(changed(random.Random("control %d" % it.seed)))])
open(FOLDER + "/Lib.antt", "w").write(library + "".join("mod %s\n" % it for it in names))
os.chdir("crates/pf_journal")
found = subprocess.run(["rt", "check", "--jobs", str(asked.jobs)], stdout=subprocess.PIPE, stderr=subprocess.STDOUT, text=True).stdout
refused = collections.defaultdict(list)
for file, lemma in re.findall(r"^\S*proofs/(\w+)\.antt:\d+:\d+: error: `(\w+)`", found, re.M):
    refused[file].append(lemma)
other = [it for it in re.findall(r"^(?:\S+:\d+:\d+: )?error: .*$", found, re.M) if not re.match(r"\S*proofs/(Random|Control)\d+\.antt", it)]
bad = sorted({it for file in refused if file.startswith("Random") for it in refused[file]})
passed = [it for it in names if it.startswith("Control") and not any(re.match("session|report", lemma) for lemma in refused[it])]
if other or "modules loaded" not in found:
    print(found[-3000:])
for it in bad:
    print("refused:", it, *re.findall(r"^\S*: error: `%s`.*$" % it, found, re.M)[:1])
for it in passed:
    print("not refused:", it)
print("%d sessions, %d of several clients, %d lemmas refused; %d controls, %d not refused" % (
    asked.count, sum((asked.seed + i) % 10 < 3 for i in range(asked.count)), len(bad), asked.controls, len(passed)))
sys.exit(1 if bad or passed or other or "modules loaded" not in found else 0)
