"""The counts of bindings/audit, the samples of its lines, and the page of `audit-report`."""

import html.parser
import json
import os
import pathlib
import re
import shutil
import socket
import subprocess
import tempfile
import threading
import time
import urllib.error
import urllib.request

from audit_support import ERROR, OK, Pair, Program, lines_of, log_file, packet, query, receive, \
    wait_for
from recorded import check


# ---- Counts -------------------------------------------------------------------------------------


class Counted(Program):
    """The program with a port for its counts."""

    def __init__(self, executable, *options, **how):
        super().__init__(executable, "--metrics", "127.0.0.1:0", *options, **how)
        self.asked = int(re.search(r"counts at .*:(\d+)", self.before)[1])

    def asks(self):
        """Connects to the port of the counts."""
        stream = socket.create_connection(("127.0.0.1", self.asked))
        stream.settimeout(60)
        return stream

    def page(self, path="/metrics"):
        """Returns the text at a path."""
        with urllib.request.urlopen(f"http://127.0.0.1:{self.asked}{path}", timeout=60) as answer:
            return answer.read().decode()

    def counts(self):
        """Returns numbers by their names and labels."""
        lines = [it for it in self.page().splitlines() if not it.startswith("#")]
        return {name: float(number) for name, _, number in (it.rpartition(" ") for it in lines)}

    def waits_for(self, name, number):
        """Waits until something is counted so often."""
        name = f"mysql_audit_{name}"
        wait_for(lambda: self.counts().get(name, 0) == number, f"{name} {number}")


def is_well_formed(page):
    """Fails where a line isn't as Prometheus reads it, or a number has no help and no type."""
    known, line = set(), r'(\w+?)(_bucket|_sum|_count)?(\{(\w+="[^"\n]*",?)+\})? [0-9.e+-]+'
    for it in page.splitlines():
        kind = re.fullmatch(r"# TYPE (\w+) (counter|gauge|histogram)", it)
        if kind:
            known.add(kind[1])
        elif not it.startswith("# HELP "):
            found = re.fullmatch(line, it)
            check(True, found is not None, f"a line of counts: {it}")
            check(True, found[1] in known or found[1] + (found[2] or "") in known, f"a type of {it}")


def check_counted(executable):
    """Connections, commands, errors, bytes, times, lines and ends are counted, also without lines."""
    with Counted(executable, "--user", "nobody") as proxy:
        is_well_formed(proxy.page())
        pair, other = Pair(proxy), Pair(proxy)
        for number in range(5):
            pair.say(f"SELECT {number}")
        pair.say("SELECT nothing", ERROR)
        pair.client.sendall(packet(0, b"\x01"))
        receive(pair.server, 5)
        pair.close()
        proxy.waits_for('ends_total{how="quit"}', 1)
        # What isn't a packet of a client can't be read.
        other.client.sendall(packet(7, b"\x03SELECT 1"))
        other.close()
        proxy.waits_for("connections", 0)
        counts = {name[len("mysql_audit_"):]: it for name, it in proxy.counts().items()}
        for name, wanted in (("connections_total", 2), ('command_seconds_count{kind="query"}', 6),
                             ('command_seconds_count{kind="login"}', 2),
                             ('command_seconds_bucket{kind="query",le="+Inf"}', 6),
                             ('errors_total{code="1146"}', 1), ("lines_lost_total", 0)):
            check(wanted, counts.get(name), name)
        check(1, sum(it for name, it in counts.items() if name.startswith("unread_total")), "faults")
        # A line of the fault is written in any case.
        check(1, counts["lines_total"], "lines")
        check(True, counts['bytes_total{side="client"}'] > 100, "bytes")
        classes = [it for name, it in counts.items() if 'bucket{kind="query"' in name]
        check(sorted(classes), classes, "classes of times")
        is_well_formed(proxy.page())


def check_many_words(executable):
    """However many different errors there are, the page has an end."""
    with Counted(executable, "--errors", "--log", "/dev/full") as proxy:
        pair = Pair(proxy)
        for code in range(300):
            pair.say("SELECT nothing", b"\xff" + code.to_bytes(2, "little") + b"#42S02no")
        pair.close()
        proxy.waits_for("connections", 0)
        counts = proxy.counts()
        errors = {name: it for name, it in counts.items() if "errors_total" in name}
        check((101, 300), (len(errors), sum(errors.values())), "errors by their codes")
        check(200, errors['mysql_audit_errors_total{code="other"}'], "other errors")
        lost, lines = "mysql_audit_lines_lost_total", "mysql_audit_lines_total"
        wait_for(lambda: (it := proxy.counts())[lost] == it[lines] > 300, "lines that are lost")
        proxy.stop(1)


def check_digests(executable):
    """Statements are counted by their digests, of which no more than some are told."""
    with Counted(executable, "--digests", "--log", "/dev/null") as proxy:
        pair = Pair(proxy)
        for number in range(5):
            pair.say(f"SELECT {number}")
        pair.say("SELECT \"a\\\nb\" FROM `a\"\nb`", ERROR)
        for number in range(300):
            pair.say(f"SELECT a{number} /* {'long' * 100} */, '{'x' * 500}', " + "b" * 1000)
        pair.close()
        proxy.waits_for("connections", 0)
        page = proxy.page()
        is_well_formed(page.replace('\\"', ""))
        counts = proxy.counts()
        names = [it for it in counts if it.startswith("mysql_audit_digest_commands_total")]
        check(5, counts['mysql_audit_digest_commands_total{digest="select ?"}'], "one digest")
        check((101, 306), (len(names), sum(counts[it] for it in names)), "digests in all")
        check(True, max(map(len, names)) < 300, "their lengths")
        odd = 'mysql_audit_digest_commands_total{digest="select ? from `a\\"\\nb`"}'
        check(1, counts.get(odd), "a digest with a quote and a line's end")
        seconds = [it for name, it in counts.items() if "digest_seconds_total" in name]
        check((101, True), (len(seconds), sum(seconds) > 0), "their times")


def check_askers(executable):
    """What askers do wrong is theirs, and the counts go on in a new process."""
    with Counted(executable) as proxy:
        try:
            proxy.page("/what")
            raise ValueError("there is a page")
        except urllib.error.HTTPError as error:
            check(404, error.code, "the status of another path")
            error.close()
        for said in (b"what\r\n\r\n", b"x" * 20000, b""):
            with proxy.asks() as asker:
                try:
                    asker.sendall(said)
                except OSError:
                    pass
        silent = [proxy.asks() for _ in range(30)]
        began = time.monotonic()
        # Nobody waits for those who say nothing.
        proxy.waits_for("connections", 0)
        check(True, time.monotonic() - began < 1, "how long one waits beside silent askers")
        for it in silent:
            check(b"", receive(it, 100), "what comes to one who says nothing")
            it.close()
        check(True, time.monotonic() - began < 9, "how long silent askers stay")


# ---- Samples and kinds --------------------------------------------------------------------------


def check_sample(executable):
    """Of so many commands one is told, and says so. Logins and ends are told in any case."""
    count, sample = 4000, 10
    with log_file() as log, Program(executable, "--log", str(log), "--sample", str(sample)) as proxy:
        pair = Pair(proxy)
        said = b"".join(query(f"SELECT {number}") for number in range(count))
        sender = threading.Thread(target=pair.client.sendall, args=[said])
        answers = threading.Thread(target=pair.server.sendall, args=[packet(1, OK) * count])
        for it in (sender, answers):
            it.start()
        check(said, receive(pair.server, len(said)), "all queries")
        check(packet(1, OK) * count, receive(pair.client, 11 * count), "all answers")
        for it in (sender, answers):
            it.join()
        pair.close()
        proxy.stop()
        records = lines_of(log.read_text())
        told = [it for it in records if it["kind"] == "query"]
        check(True, 200 < len(told) < 650, f"{len(told)} of {count} commands are told")
        check({sample}, {it.get("sample") for it in told}, "what a line says of it")
        check(["login", "end"], [it["kind"] for it in records if it["kind"] != "query"], "others")


# ---- The page -----------------------------------------------------------------------------------


class Tables(html.parser.HTMLParser):
    """The tables of a page: rows of texts by a table's name; and what it would load."""

    def __init__(self, text):
        super().__init__()
        self.tables, self.rows, self.loads, self.cell = {}, None, [], None
        self.feed(text)

    def handle_starttag(self, tag, attrs):
        given = dict(attrs)
        self.loads += [value for name, value in attrs if name in ("src", "href", "action", "xlink:href")]
        if tag == "table":
            self.rows = self.tables[given["id"]] = []
        elif tag == "tr":
            self.rows.append([])
        elif tag in ("td", "th"):
            self.cell = ""

    def handle_data(self, data):
        if self.cell is not None:
            self.cell += data

    def handle_endtag(self, tag):
        if tag in ("td", "th"):
            self.rows[-1].append(self.cell)
            self.cell = None

    def dicts(self, name):
        """Returns the rows of a table, by the names of its columns."""
        head, *rows = self.tables[name]
        return [dict(zip(head, row)) for row in rows]


def report(executable, *words):
    """Runs `audit-report`, and returns its page."""
    program = str(pathlib.Path(executable).with_name("audit-report"))
    ran = subprocess.run([program, *words], stdout=subprocess.PIPE, stderr=subprocess.PIPE, text=True,
                         check=False)
    check((0, ""), (ran.returncode, ran.stderr), f"how {words} ends")
    return ran.stdout


def check_page(executable):
    """The page sums up what the log of a run has, and needs nothing else."""
    with log_file() as log, Program(executable, "--log", str(log)) as proxy:
        for user, database in (("ann", "shop"), ("bob", "books")):
            pair = Pair(proxy, user, database)
            for _ in range(3):
                pair.say("SELECT '<script>alert(1)</script>'")
            pair.say("SELECT nothing", ERROR)
            pair.close()
        cut = Pair(proxy)
        cut.client.sendall(packet(7, b"\x03SELECT 1"))
        check(b"", receive(cut.client, 1), "the end of a connection that is cut")
        cut.close()
        proxy.stop()
        text = report(executable, str(log))
        by_text = report(executable, str(log), "--by-text", "--examples")
        lines = lines_of(log.read_text())
    page = Tables(text)
    check([], page.loads, "what the page would load")
    check(1, text.count("<script>"), "scripts")
    by_digest = {it["statement"]: it["count"] for it in page.dicts("statements")}
    check({"select ?": "6", "select nothing": "2"}, by_digest, "statements by their digests")
    check(False, "alert" in text, "whether a value is in the page")
    page = Tables(by_text)
    check(1, by_text.count("<script>"), "scripts of a page of texts")
    statements = {it["statement"]: it for it in page.dicts("statements")}
    check({*statements}, {it["the slowest one's text"] for it in statements.values()}, "examples")
    check(["6", "2"], [statements[it]["count"] for it in
                       ("SELECT '<script>alert(1)</script>'", "SELECT nothing")], "statements")
    check("2", statements["SELECT nothing"]["errors"], "errors of a statement")
    seconds = sum(it["seconds"] for it in lines if it["kind"] == "query")
    check(True, f"{len(lines)} lines" in text and seconds > 0, "the head")
    for name, wanted in (("users", {"ann": "4", "bob": "4"}), ("databases", {"shop": "4", "books": "4"}),
                         ("hosts", {"127.0.0.1": "8"}), ("errors", {"1146 (42S02)": "2"})):
        found = {next(iter(it.values())): it["count"] for it in page.dicts(name)}
        check(wanted, found, f"the table {name}")
    check(1, len([it for it in page.dicts("gaps") if it["what"].startswith("cut")]), "what is cut")
    check(True, "<svg" in text, "a time line")


# What a browser does with the page: it clicks on columns, and tells the first rows of a table.
CLICKS = """<script>
const told = [];
for (const [column, clicks] of [[2, 1], [2, 1], [1, 2]]) {
  for (let number = 0; number < clicks; number++)
    document.querySelectorAll("#statements th")[column].click();
  told.push(Array.from(document.querySelectorAll("#statements tbody tr"))
    .map((row) => row.cells[column].textContent.replace(/\\s/g, "")));
}
const place = document.createElement("pre");
place.id = "told";
place.textContent = JSON.stringify(told);
document.body.append(place);
</script>
"""


# It tells the widths of the page, of the statements' column and of the window.
WIDTHS = """<script>
const place = document.createElement("pre");
place.id = "told";
place.textContent = JSON.stringify([document.documentElement.scrollWidth,
  document.querySelector("#statements td.t").offsetWidth, window.innerWidth]);
document.body.append(place);
</script>
"""


def browse(text, *options):
    """Has a browser without a screen read a page, and returns what it makes of it."""
    with tempfile.TemporaryDirectory(prefix="mysql-audit-") as folder:
        file = pathlib.Path(folder, "page.html")
        file.write_text(text)
        words = ["chromium", "--headless", "--no-sandbox", "--disable-gpu", f"--user-data-dir={folder}",
                 "--virtual-time-budget=60000", *options, "--dump-dom", file.as_uri()]
        ran = subprocess.run(words, stdout=subprocess.PIPE, stderr=subprocess.DEVNULL, text=True,
                             check=True, timeout=600)
        return ran.stdout


def check_browser(executable):
    """A browser shows the page, and sorts a table by the column that is clicked."""
    if not shutil.which("chromium"):
        print("  left out: a page in a browser (apt-get install chromium)")
        return
    counts = {"SELECT a": 3, "SELECT b": 12, "SELECT c": 7}
    with log_file() as log:
        with open(log, "w", encoding="utf-8") as file:
            for text, count in counts.items():
                line = {"time": "2026-11-30T10:00:00Z", "kind": "query", "text": text,
                        "results": [{"rows": 1}], "whole": True, "seconds": 0.001}
                file.write((json.dumps(line) + "\n") * count)
        text = report(executable, str(log))
    dom = browse(text.replace("</body>", CLICKS + "</body>"))
    told = json.loads(dom.partition('<pre id="told">')[2].partition("</pre>")[0])
    check([["12", "7", "3"], ["3", "7", "12"], ["selecta", "selectb", "selectc"]], told,
          "rows that are sorted")
    for width in (1280, 400):
        dom = browse(text.replace("</body>", WIDTHS + "</body>"), f"--window-size={width},900")
        page, column, window = json.loads(dom.partition('<pre id="told">')[2].partition("</pre>")[0])
        check((True, True), (page <= window, column >= 200), f"widths at {width}: {page}, {column}, {window}")


def check_large_page(executable):
    """A long log with many texts is one page, in a time that is printed."""
    count, texts = 100000, 20000
    with log_file() as log:
        with open(log, "w", encoding="utf-8") as file:
            for number in range(count):
                file.write(json.dumps({
                    "time": f"2026-11-30T{10 + number // 36000:02}:{number // 600 % 60:02}:"
                            f"{number // 10 % 60:02}.{number % 10}00000Z",
                    "connection": number % 50, "client": f"10.0.{number % 7}.1:5000",
                    "user": f"user{number % 5}", "database": "shop", "kind": "query",
                    "text": f"SELECT name FROM goods WHERE id = {number % texts}",
                    "results": [{"rows": 1}], "whole": True, "seconds": 0.001 * (number % texts),
                    "first": 0.0001, "traffic": [40, 90]}) + "\n")
            file.write("no line\n")
        began = time.monotonic()
        text = report(executable, str(log), "--top", "10", "--texts", "15000", "--by-text")
        took = time.monotonic() - began
        size = os.path.getsize(log)
        by_digest = Tables(report(executable, str(log))).dicts("statements")
    page = Tables(text)
    check([("select name from goods where id = ?", "100\u202f000")],
          [(it["statement"], it["count"]) for it in by_digest], "statements by their digests")
    rows = page.dicts("statements")
    check((11, f"SELECT name FROM goods WHERE id = {14999}"), (len(rows), rows[0]["statement"]), "rows")
    counts = sum(int(it["count"].replace("\u202f", "")) for it in rows)
    check(count, counts, "all statements")
    check(True, "1 lines couldn't be read" in text, "what is said of a line that is none")
    check(True, len(text) < 300000, f"the page has {len(text)} bytes")
    print(f"  a page about {count} lines of {size} bytes: {took:.2f} s")


def checks():
    """Returns all of them, by their names."""
    return [("counts", check_counted), ("many errors", check_many_words),
            ("counts by digests", check_digests), ("askers", check_askers),
            ("a sample", check_sample), ("a page", check_page), ("a page in a browser", check_browser),
            ("a large page", check_large_page)]
