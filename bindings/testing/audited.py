"""The audit before a MariaDB server: under load beside a dump, and beside what pt-query-digest says
of the server's slow log.

`bindings/test --server` calls `test_audited`; with `--load SECONDS` the load is longer, and with
`--rate N` at most N statements a second are sent.
"""

import collections
import contextlib
import json
import os
import pathlib
import random
import re
import resource
import subprocess
import threading
import time

from .auditing import has_tls
from .support import Failure, has, run

USER, DATABASE = "tester", "bindings"
SLOW_LOG = ("--slow-query-log", "--long-query-time=0", "--log-output=FILE",
            "--log-slow-disabled-statements=")
# Who sends under load: clients at once, threads of sysbench, and statements of its transaction.
WORKERS, SYSBENCH_THREADS, TRANSACTION = 4, 2, 20
# What the two tools are compared by.
STATEMENTS = 4000
# How often audit-report reads as much as pt-query-digest does, in as much processor time.
FASTER = 10


def check(wanted, found, what):
    """Fails where what was found differs."""
    if wanted != found:
        raise Failure(f"{what}: {found!r:.2000}\nin place of {wanted!r:.2000}")


class Proxy:
    """The program before a server, with its log; it ends with the `with`."""

    def __init__(self, program, port, log, *options):
        self.log = pathlib.Path(log)
        self.process = subprocess.Popen(
            [program, "127.0.0.1:0", f"127.0.0.1:{port}", "--json", "--log", log, "--metrics",
             "127.0.0.1:0", "--grace", "60", *options], stderr=subprocess.PIPE, text=True)
        said = ""
        while "listening at" not in said:
            line = self.process.stderr.readline()
            if not line:
                raise Failure(f"the audit doesn't begin: {said}")
            said += line
        self.port = int(said.rpartition(":")[2])

    def __enter__(self):
        return self

    def __exit__(self, *_):
        if self.process.poll() is None:
            self.process.kill()
        self.process.wait()
        self.process.stderr.close()

    def lines(self):
        """Ends it, and gives the object of each of its lines."""
        self.process.terminate()
        check(0, self.process.wait(120), "the status of the audit")
        with open(self.log, encoding="utf-8") as log:
            yield from map(json.loads, log)

    def end(self):
        """Ends it, and returns the objects of its lines."""
        return list(self.lines())

    def memory(self):
        """Returns how many KB of memory it has."""
        status = pathlib.Path(f"/proc/{self.process.pid}/status").read_text()
        return int(status.partition("VmRSS:")[2].split()[0])


def word_of(tls):
    """Returns the word by which a client uses TLS, or none."""
    return "--ssl" if tls else "--skip-ssl"


def client(port, *options, tls=False):
    """Returns the words of a client that reads statements from its input."""
    return ["mariadb", "--no-defaults", "--host=127.0.0.1", f"--port={port}", f"--user={USER}",
            word_of(tls), "--default-character-set=utf8mb4", "--batch", "--comments", "--force",
            *options, DATABASE]


def sql(port, text, tls=False):
    """Has statements run, and returns what is printed of them; errors are no failure."""
    ran = subprocess.run(client(port, tls=tls), input=text.encode(), stdout=subprocess.PIPE,
                         stderr=subprocess.DEVNULL, check=False)
    return ran.stdout.decode(errors="replace")


def dump(port, table, tls=False):
    """Returns what mariadb-dump says of a table."""
    return run(["mariadb-dump", "--no-defaults", "--host=127.0.0.1", f"--port={port}",
                f"--user={USER}", word_of(tls), "--skip-comments", "--hex-blob", DATABASE, table])


def certificate(folder):
    """Makes a certificate, and returns the files that it and its key are in."""
    cert, key = os.path.join(folder, "cert.pem"), os.path.join(folder, "key.pem")
    run(["openssl", "req", "-x509", "-newkey", "rsa:2048", "-nodes", "-keyout", key, "-out", cert,
         "-days", "2", "-subj", "/CN=localhost"])
    return cert, key


# ---- Load ---------------------------------------------------------------------------------------


class Sender(threading.Thread):
    """Sends the same again and again until it is told to stop, at most once in so many seconds."""

    def __init__(self, stops, seconds):
        super().__init__()
        self.stops, self.seconds, self.runs = stops, seconds, 0

    def send(self):
        """Sends it once."""
        raise NotImplementedError

    def run(self):
        began = time.monotonic()
        while not self.stops.is_set():
            self.send()
            self.runs += 1
            self.stops.wait(max(0.0, began + self.runs * self.seconds - time.monotonic()))


class Worker(Sender):
    """Clients one behind the other, each with some statements."""

    def __init__(self, port, number, stops, seconds, tls=False):
        super().__init__(stops, seconds)
        self.port, self.number, self.sent, self.wrong, self.tls = port, number, 0, [], tls
        self.texts = self.statements()

    def statements(self):
        """Returns statements on one table, of which one fails."""
        table = f"load_{self.number}"
        at = random.Random(self.number)
        texts = [f"DROP TABLE IF EXISTS {table}",
                 f"CREATE TABLE {table} (id INT PRIMARY KEY, name VARCHAR(99), note LONGTEXT)"]
        for number in range(20):
            note = "x" * at.choice((0, 10, 1000, 100000))
            texts += ["BEGIN", f"INSERT INTO {table} VALUES ({number}, 'it\\'s', '{note}')",
                      f"UPDATE {table} SET name = 'maté' WHERE id = {number}", "COMMIT",
                      f"SELECT id, name FROM {table} WHERE id IN ({number}, 7, {number + 1})"]
        return texts + [f"SELECT nothing FROM {table}", f"SELECT COUNT(*), SUM(id) FROM {table}"]

    def send(self):
        printed = sql(self.port, ";\n".join(self.texts), self.tls)
        self.sent += len(self.texts)
        if not printed.endswith("\n20\t190\n"):
            self.wrong.append(printed[-200:])


class Dumper(Sender):
    """Dumps of a table, each of which has to be the same."""

    def __init__(self, port, wanted, stops, seconds, tls):
        super().__init__(stops, seconds)
        self.port, self.wanted, self.wrong, self.tls = port, wanted, 0, tls

    def send(self):
        self.wrong += dump(self.port, "dumped", self.tls) != self.wanted


class Sysbench(threading.Thread):
    """Transactions of sysbench by prepared statements, for so many seconds."""

    def __init__(self, port, seconds, rate):
        super().__init__()
        self.words = [*sysbench(port), f"--time={seconds}", "--events=0", f"--rate={rate}", "run"]
        self.said = ""

    def run(self):
        ran = subprocess.run(self.words, stdin=subprocess.DEVNULL, stdout=subprocess.PIPE,
                             stderr=subprocess.STDOUT, text=True, check=False)
        self.said = ran.stdout

    def counted(self, name):
        """Returns one of the numbers that it prints at its end."""
        found = re.search(rf"^ *{name}: +([0-9]+)", self.said, re.M)
        if not found:
            raise Failure(f"sysbench prints no {name}: {self.said:.2000}")
        return int(found[1])


def sysbench(port):
    """Returns the words of a sysbench of two threads and two tables."""
    return ["sysbench", "oltp_read_write", "--db-driver=mysql", "--mysql-host=127.0.0.1",
            f"--mysql-port={port}", f"--mysql-user={USER}", f"--mysql-db={DATABASE}", "--tables=2",
            "--table-size=1000", f"--threads={SYSBENCH_THREADS}"]


def fill(port):
    """Makes the table that is dumped, and those of sysbench."""
    rows = ", ".join(f"({it}, REPEAT('row {it} ', 30), x'00ff27')" for it in range(5000))
    sql(port, "CREATE TABLE dumped (id INT PRIMARY KEY, name TEXT, bytes BLOB);\n"
        f"INSERT INTO dumped VALUES {rows}")
    if has("sysbench"):
        run([*sysbench(port), "prepare"])


def counted(records):
    """Returns how many lines there are of each kind, of each way to end, and of the workers'
    statements."""
    counts = collections.Counter()
    for it in records:
        counts[it["kind"]] += 1
        if it["kind"] == "end":
            counts["end", it["text"]] += 1
        elif it["kind"] == "login":
            counts["login", "TLS"] += "tls" in it and "tls_server" in it
        elif it["kind"] == "query":
            text = it["text"]
            counts["of workers"] += " load_" in text or text in ("BEGIN", "COMMIT")
    return counts


class Load:
    """Four workers, a dumper and sysbench, which send through the proxy for so many seconds. Of a
    rate the workers send half, and sysbench the other. With TLS two workers and the dumper use it."""

    def __init__(self, port, wanted, seconds, rate, tls):
        self.seconds, self.memory, self.stops = seconds, [], threading.Event()
        each = len(Worker(port, 0, self.stops, 0).texts)
        period = 2 * WORKERS * each / rate if rate else 0
        self.workers = [Worker(port, it, self.stops, period, tls and it % 2 == 0)
                        for it in range(WORKERS)]
        self.dumper = Dumper(port, wanted, self.stops, period, tls)
        transactions = max(1, rate // 2 // TRANSACTION) if rate else 0
        self.sysbench = Sysbench(port, seconds, transactions) if has("sysbench") else None
        self.threads = [*self.workers, self.dumper, *([self.sysbench] if self.sysbench else [])]

    def run(self, proxy):
        """Has all send, and asks each second at least for the memory of the proxy."""
        for it in self.threads:
            it.start()
        ends = time.monotonic() + self.seconds
        while time.monotonic() < ends:
            time.sleep(min(1.0, self.seconds / 10))
            self.memory.append(proxy.memory())
        self.stops.set()
        for it in self.threads:
            it.join()

    def check(self, counts):
        """Fails where what was sent and what was told differ."""
        check([[]] * WORKERS, [it.wrong for it in self.workers], "what clients print")
        check(0, self.dumper.wrong, "dumps that differ")
        lost = {it for it in ("cut", "unread", "skipped", "refused", "lost") if counts[it]}
        check(set(), lost, "what isn't audited")
        check(counts["login"], counts["end", "quit"], "connections that end by a quit")
        check(counts["login"], counts["end"], "ends")
        secured = sum(it.runs for it in (*self.workers, self.dumper) if it.tls)
        check(secured, counts["login", "TLS"], "connections with TLS on both sides")
        check(sum(it.sent for it in self.workers), counts["of workers"], "lines of statements")
        if self.sysbench:
            # (a statement that fails, as by a deadlock, is counted apart)
            sent = self.sysbench.counted("total") + self.sysbench.counted("ignored errors")
            check(sent, counts["execute"], "lines of executions")
            check(0, self.sysbench.counted("reconnects"), "connections that sysbench lost")

    def tell(self, counts):
        """Prints what passed, and the memory at the beginning and at each twelfth of the time."""
        runs = sum(it.runs for it in self.workers)
        said = f"  {self.seconds} s: {runs} clients with {counts['of workers']} statements, "
        if self.sysbench:
            said += (f"sysbench with {counts['execute']} executions in "
                     f"{self.sysbench.counted('transactions')} transactions, ")
        else:
            print("left out: sysbench beside them (apt-get install sysbench)", flush=True)
        lines = sum(number for kind, number in counts.items() if isinstance(kind, str)
                    and kind != "of workers")
        print(f"{said}{self.dumper.runs} dumps; {counts['login']} connections, of which "
              f"{counts['login', 'TLS']} have TLS, {lines} lines", flush=True)
        parts = [self.memory[len(self.memory) * it // 12] for it in range(12)]
        print(f"  KB of memory at each twelfth of the time: {parts}, {self.memory[-1]}", flush=True)


def check_load(program, room, port, seconds, rate, pair=()):
    """Clients and dumps for so long: none is cut, each has its line, and memory is bounded. With a
    certificate and its key some of them use TLS."""
    fill(port)
    wanted = dump(port, "dumped")
    if wanted.count("INSERT") < 1:
        raise Failure("the table isn't dumped")
    words = [f"--tls-cert={pair[0]}", f"--tls-key={pair[1]}"] if pair else []
    with Proxy(program, port, os.path.join(room, "load.log"), "--digests", *words) as proxy:
        load = Load(proxy.port, wanted, seconds, rate, bool(pair))
        load.run(proxy)
        counts = counted(proxy.lines())
    load.check(counts)
    # What it holds at first is room for what comes.
    half = len(load.memory) // 2
    early, late = max(load.memory[:half]), max(load.memory[half:])
    if late > early + 4096:
        raise Failure(f"it has {early} KB of memory in the first half, and {late} KB in the second")
    load.tell(counts)


# ---- Beside pt-query-digest -----------------------------------------------------------------------


def statement(at):
    """Returns a random statement of one of some classes."""
    number, word = at.randrange(1000), at.choice(("tea", "it\\'s", 'a "b"', "maté; x", ""))
    return at.choice((
        f"SELECT name FROM goods WHERE id = {number}",
        f"select name  from goods\nwhere id = {number}",
        f"SELECT * FROM goods WHERE name = '{word}' AND price < {number}.5",
        f"SELECT * FROM goods WHERE name LIKE '{word}%' OR id > -{number} ORDER BY id DESC",
        f"SELECT * FROM goods WHERE id IN ({number}, {number + 1}, {number + 2})",
        f"SELECT kind, COUNT(*) FROM goods GROUP BY kind HAVING COUNT(*) > {number}",
        f"SELECT g.name FROM goods g JOIN goods h ON g.id = h.id WHERE h.price >= {number}",
        f"INSERT INTO sold (id, name) VALUES ({number}, '{word}')",
        f"INSERT INTO sold (name, id) VALUES ('{word}', {number}), ('two', 2), (NULL, 3)",
        f"UPDATE sold SET name = '{word}' WHERE id = {number}",
        f"DELETE FROM sold WHERE id = {number} OR name = '{word}'",
        f"SELECT nothing FROM goods WHERE id = {number}",
        f"SELECT name FROM goods2 WHERE id = {number}",
        f"SELECT `a b` FROM goods2 LIMIT {number}",
        f"SELECT 0x{number:04x}, {number}, NULL",
        "SELECT NOW()", "BEGIN", "COMMIT", "SHOW TABLES"))


# Statements of which the two tools make different classes, and who is right.
DIFFERENCES = (
    ("lists of one value and of several are one class of pt-query-digest, and two of MySQL's digests",
     ("SELECT name FROM goods WHERE id IN (1)", "SELECT name FROM goods WHERE id IN (1, 2)")),
    ("a row and several rows are one class of pt-query-digest, and two of MySQL's digests",
     ("INSERT INTO sold (id) VALUES (1)", "INSERT INTO sold (id) VALUES (1), (2)")),
    ("a limit with an offset is of the class without one for pt-query-digest alone",
     ("SELECT id FROM goods LIMIT 5", "SELECT id FROM goods LIMIT 5, 6")),
    ("blanks around a sign make another class of pt-query-digest",
     ("SELECT name FROM goods WHERE id = 1", "SELECT name FROM goods WHERE id=1")),
    ("a comment leaves a blank to pt-query-digest, and makes another class",
     ("SELECT name FROM goods WHERE id = 1", "SELECT name FROM goods WHERE id = 1 /* why */")),
    ("digits in a name are taken out by pt-query-digest, so tables of two names are one",
     ("SELECT name FROM goods2", "SELECT name FROM goods3")),
    ("a quote that is written twice ends no string, but for pt-query-digest",
     ("SELECT id FROM goods WHERE name = 'it''s'", "SELECT id FROM goods WHERE name = 'its'")),
)


def fingerprints(room, texts):
    """Returns what pt-fingerprint says of texts."""
    file = os.path.join(room, "statements.sql")
    pathlib.Path(file).write_text("".join(f"{it};\n" for it in texts), encoding="utf-8")
    found = run(["pt-fingerprint", file]).splitlines()
    check(len(texts), len(found), "fingerprints")
    return found


def measured(words):
    """Runs a program, and returns what it prints and how much processor time it took."""
    before = resource.getrusage(resource.RUSAGE_CHILDREN)
    # (what it says of its progress is left out)
    said = subprocess.run(words, stdin=subprocess.DEVNULL, stdout=subprocess.PIPE, text=True,
                          stderr=subprocess.DEVNULL, check=True).stdout
    after = resource.getrusage(resource.RUSAGE_CHILDREN)
    return said, sum(getattr(after, it) - getattr(before, it) for it in ("ru_utime", "ru_stime"))


def number(text):
    """Returns a number as the page shows it."""
    return int(re.sub(r"\D", "", text))


def rows_of_page(page):
    """Returns the statements of a page of audit-report: count, rows and rows affected by digest."""
    table = page.partition('<table id="statements">')[2].partition("</table>")[0]
    rows = {}
    for row in table.split("<tr>")[2:]:
        cells = [re.sub("<[^>]*>", "", it) for it in re.findall(r"<td.*?</td>", row, re.S)]
        text = cells[1]
        for name, character in (("lt", "<"), ("gt", ">"), ("quot", '"'), ("#39", "'"), ("amp", "&")):
            text = text.replace(f"&{name};", character)
        rows[cells[0], text] = [number(cells[it]) for it in (2, 9, 10)]
    return rows


def told_by_pt(said):
    """Returns what pt-query-digest sums up: count, rows and rows affected by fingerprint."""
    classes = {}
    for it in json.loads(said)["classes"]:
        sums = {name: float(of.get("sum", 0)) for name, of in it["metrics"].items()}
        if not it["fingerprint"].startswith("administrator command"):
            classes[it["fingerprint"]] = [it["query_count"], int(sums.get("Rows_sent", 0)),
                                          int(sums.get("Rows_affected", 0))]
    return classes


def sums_by(key, records):
    """Returns count, rows and rows affected of lines, by what each is told apart by."""
    sums = {}
    for it in records:
        sum_of_it = sums.setdefault(key(it), [0, 0, 0])
        sum_of_it[0] += 1
        for result in it["results"]:
            sum_of_it[1] += result.get("rows", 0)
            sum_of_it[2] += result.get("affected", 0)
    return sums


def check_classes(records, known):
    """Two statements are of one class for one of the two where they are for the other."""
    pairs = {(it["digest"], known[it["text"]]) for it in records}
    for at, name in ((0, "digest"), (1, "fingerprint")):
        found = [it[at] for it in pairs]
        more = sorted({it for it in found if found.count(it) > 1})
        if more:
            raise Failure(f"a {name} of several classes: "
                          f"{[it for it in sorted(pairs) if it[at] in more]}")


@contextlib.contextmanager
def captured(port, file):
    """Has tcpdump write the packets of a server's port to a file, as pt-query-digest reads them."""
    words = ["tcpdump", "-i", "lo", "-s", "65535", "-B", "65536", "-U", "-x", "-nn", "-q", "-tttt",
             "port", str(port)]
    with open(file, "w", encoding="utf-8") as out, subprocess.Popen(
            words, stdin=subprocess.DEVNULL, stdout=out, stderr=subprocess.PIPE, text=True) as it:
        try:
            while "listening on" not in it.stderr.readline():
                if it.poll() is not None:
                    raise Failure("tcpdump doesn't begin")
            yield
            # (what was said last may not be captured yet)
            time.sleep(2)
        finally:
            it.terminate()
            said = it.stderr.read()
        it.wait()
    if "\n0 packets dropped by kernel" not in said:
        raise Failure(f"tcpdump didn't capture all: {said}")


def asked_pt(form, file, *options):
    """Returns what pt-query-digest says of a file, and how much processor time it took."""
    return measured(["pt-query-digest", "--no-version-check", "--output", "json", "--limit", "100%",
                     "--type", form, *options, file])


def check_faster(name, slowly, fast):
    """Prints how much processor time the two took, and fails where that isn't what is promised."""
    print(f"  {name}: pt-query-digest {slowly:.2f} s of a processor, audit-report {fast:.2f} s",
          flush=True)
    if slowly < FASTER * fast:
        raise Failure("audit-report isn't ten times as fast")


def check_pt(program, room, port, slow_log, count=STATEMENTS):
    """The classes, their counts and their rows are those of pt-query-digest, which takes longer."""
    sql(port, "CREATE TABLE goods (id INT PRIMARY KEY, name VARCHAR(99), price DOUBLE, kind INT);\n"
        "CREATE TABLE goods2 (id INT, name TEXT, `a b` INT);\n"
        "CREATE TABLE sold (id INT, name TEXT);\nINSERT INTO goods2 VALUES (1, 'one', 1);\n"
        "INSERT INTO goods VALUES (1, 'tea', 2.5, 1), (2, 'salt', 1, 1), (900, 'it''s', 7, 2)")
    at, log = random.Random(1), os.path.join(room, "digests.log")
    texts, capture = [statement(at) for _ in range(count)], os.path.join(room, "capture.txt")
    with contextlib.ExitStack() as stack:
        if captures():
            stack.enter_context(captured(port, capture))
        proxy = stack.enter_context(Proxy(program, port, log, "--digests", "--kind", "query"))
        began = os.path.getsize(slow_log)
        sql(proxy.port, ";\n".join(texts))
        records = proxy.end()
    part = os.path.join(room, "part.log")
    with open(slow_log, "rb") as whole, open(part, "wb") as it:
        whole.seek(began)
        it.write(whole.read())
    check(count, len(records), "lines of statements")
    every = sorted({it["text"] for it in records})
    known = dict(zip(every, fingerprints(room, every)))
    check_classes(records, known)
    report = os.path.join(os.path.dirname(program), "audit-report")
    page, fast = measured([report, log])
    check(sums_by(lambda it: ("query", it["digest"]), records), rows_of_page(page), "the page")
    said, slowly = asked_pt("slowlog", part)
    sums = sums_by(lambda it: known[it["text"]], records)
    check(sums, told_by_pt(said), "its classes")
    print(f"  {count} statements of {len(sums)} classes", flush=True)
    check_faster("by the slow log", slowly, fast)
    if captures():
        said, slowly = asked_pt("tcpdump", capture, "--watch-server", f"127.0.0.1:{port}")
        # (it counts no rows of a capture)
        check({it: [of[0], 0, of[2]] for it, of in sums.items()}, told_by_pt(said),
              "its classes by a capture")
        check_faster("by a capture", slowly, fast)
    else:
        print("left out: pt-query-digest by a capture, which root can make (apt-get install "
              "tcpdump)", flush=True)


def captures():
    """Returns whether tcpdump may capture."""
    return has("tcpdump") and os.geteuid() == 0


def check_known_differences(program, room, port):
    """Where the classes differ a line says how, and who is right."""
    log = os.path.join(room, "differences.log")
    texts = [text for _, pair in DIFFERENCES for text in pair]
    with Proxy(program, port, log, "--digests", "--kind", "query") as proxy:
        sql(proxy.port, ";\n".join(texts))
        digests = [it["digest"] for it in proxy.end()]
    found = fingerprints(room, texts)
    for place, (why, _) in enumerate(DIFFERENCES):
        pair = slice(2 * place, 2 * place + 2)
        ours, theirs = digests[pair], found[pair]
        if (ours[0] == ours[1]) == (theirs[0] == theirs[1]):
            raise Failure(f"no difference any more: {why}: {ours}, {theirs}")
        print(f"  {why}:\n    {ours}\n    {theirs}", flush=True)


def test_audited(report, room, mariadb, program, seconds, rate):
    """Runs both over a server that logs all as slow."""
    folder = os.path.join(room, "audited")
    os.makedirs(folder, exist_ok=True)
    slow_log = os.path.join(folder, "slow.log")
    with contextlib.ExitStack() as stack:
        options = [*SLOW_LOG, f"--slow-query-log-file={slow_log}"]
        pair = certificate(folder) if has("openssl") and has_tls() else ()
        if pair:
            options += [f"--ssl-cert={pair[0]}", f"--ssl-key={pair[1]}"]
        port = report.run("a server that logs all as slow",
                          lambda: stack.enter_context(mariadb(folder, *options)))
        if not port:
            return
        report.run("the audit under load", check_load, program, folder, port, seconds, rate, pair)
        if has("pt-query-digest"):
            report.run("the audit beside pt-query-digest", check_pt, program, folder, port, slow_log)
            report.run("where digests differ from pt-query-digest's", check_known_differences,
                       program, folder, port)
        else:
            print("left out: the audit beside pt-query-digest (apt-get install percona-toolkit)",
                  flush=True)
