"""The tables that statements name, and the alerts of bindings/audit."""

import pathlib
import signal
import tempfile
import time

from audit_support import ERROR, OK, Pair, Program, lines_of, log_file, packet, query, receive, \
    wait_for
from recorded import check

PREPARED = b"\0\x07\0\0\0\0\0\0\0\0\0\0"
EXECUTION = b"\x17\x07\0\0\0\0\x01\0\0\0"
# Statements, whether they name the table salaries, and the tables that are told.
STATEMENTS = (
    ("SELECT pay FROM hr.Salaries s JOIN `people` USING (id)", True, ["hr.salaries", "people"]),
    ("SELECT pay FROM(salaries)", True, ["salaries"]),
    ("SELECT 1 FROM /*!40001 salaries */", True, ["salaries"]),
    ("SELECT 1 FROM /*!50000salaries*/", True, ["salaries"]),
    # What SQL prepares is a string, in which a filter finds the name.
    ("PREPARE s FROM 'SELECT pay FROM salaries'", True, ["?"]),
    ("SELECT 1 FROM old_salaries, salaries2", False, ["old_salaries", "salaries2"]),
    ("SET @a = 1", False, []))


def say_all(proxy):
    """A client says the statements, and executes one that names the table."""
    pair = Pair(proxy)
    for text, _, _ in STATEMENTS:
        pair.say(text)
    for asked, answer in ((b"\x16DELETE FROM salaries", PREPARED), (EXECUTION, OK), (b"\x0e", OK)):
        pair.client.sendall(packet(0, asked))
        receive(pair.server, 4 + len(asked))
        pair.answer(packet(1, answer))
    pair.close()


def check_tables(executable):
    """Lines have the tables that their statements name, and a filter goes by names in texts."""
    for options in ([], ["--redact"]):
        with Program(executable, "--tables", *options) as proxy:
            say_all(proxy)
            proxy.stop()
            told = [it.get("tables") for it in proxy.printed()]
        tables = [it for _, _, it in STATEMENTS] + [["salaries"]] * 2
        check([None, *tables, None, None], told, "tables of lines")
    long = "SELECT '" + "x" * 100000 + "' FROM t"
    words = ["--table", "SALARIES", "--table", "people", "--longest", "70000"]
    with log_file() as log, Program(executable, *words, "--log", str(log)) as proxy:
        say_all(proxy)
        pair = Pair(proxy)
        pair.client.sendall(query(long))
        check(query(long), receive(pair.server, len(long) + 5), "a long query")
        pair.answer(packet(1, OK))
        pair.close()
        proxy.stop()
        told = [it["text"] for it in lines_of(log.read_text())]
    named = [text for text, is_named, _ in STATEMENTS if is_named] + ["DELETE FROM salaries"] * 2
    # Of a long text it isn't known what it names.
    check(named, told[:-1], "lines of a table")
    check(long[:60000], told[-1][:60000], "a text that isn't read whole")


def check_alerts(executable):
    """A line that a rule takes is in the log of alerts, and a program gets it, also by filters."""
    rules = ["table = salaries; kind = query", "errors; user=bob", "kind=cut"]
    with tempfile.TemporaryDirectory(prefix="mysql-audit-") as room:
        alerts, got, program = (pathlib.Path(room, it) for it in ("alerts", "got", "program"))
        program.write_text(f'#!/bin/sh\necho run "$1" >> {got}\ncat >> {got}\n')
        program.chmod(0o700)
        words = [it for rule in rules for it in ("--alert", rule)]
        with Program(executable, *words, "--kind", "login", "--alert-log", str(alerts),
                     "--alert-command", f"{program}  why", "--metrics", "127.0.0.1:0") as proxy:
            say_all(proxy)
            for user in ("ann", "bob"):
                pair = Pair(proxy, user)
                pair.say("SELECT nothing", ERROR)
                pair.close()
            cut = Pair(proxy)
            cut.client.sendall(packet(7, b"\x03SELECT 1"))
            check(b"", receive(cut.client, 1), "the end of one that is cut")
            cut.close()
            wait_for(lambda: got.exists() and "cut" in got.read_text(), "what the program gets")
            proxy.stop()
            check({"login", "cut"}, {it["kind"] for it in proxy.printed()}, "the log")
        said = lines_of(alerts.read_text())
        found = [(it["alert"], it.get("text", "")[:40]) for it in said]
        named = [(rules[0], text[:40]) for text, is_named, _ in STATEMENTS if is_named]
        wanted = [*named, (rules[1], "SELECT nothing"), (rules[2], said[-1]["text"][:40])]
        check(wanted, found, "the log of alerts")
        lines = got.read_text().splitlines()
        check(said, lines_of("\n".join(it for it in lines if it != "run why")), "the program's lines")
        check(True, "run why" in lines, "the words of the program")


def check_alerts_stay(executable):
    """A program that doesn't read or end holds no client, and one that isn't there is told. Rules change
    by a HUP, and the log of alerts is opened anew."""
    with tempfile.TemporaryDirectory(prefix="mysql-audit-") as room:
        config, alerts = pathlib.Path(room, "settings"), pathlib.Path(room, "alerts")
        common = f"alert-log = {alerts}\nalert-command = sleep 50\n"
        config.write_text(common + "alert = kind=query; table=a\n")
        with Program(executable, "--config", str(config), "--log", "/dev/null") as proxy:
            pair = Pair(proxy)
            began = time.monotonic()
            for _ in range(30):
                pair.say("SELECT '" + "x" * 50000 + "' FROM a")
            wait_for(lambda: alerts.read_text().count("\n") == 30, "alerts")
            alerts.rename(pathlib.Path(room, "before"))
            config.write_text(common + "alert = table=b\n")
            proxy.signal(signal.SIGHUP, "the settings were read")
            pair.say("SELECT 1 FROM a")
            pair.say("SELECT 1 FROM b")
            wait_for(alerts.exists, "another log of alerts")
            pair.close()
            check(True, time.monotonic() - began < 20, "how long clients wait")
            proxy.stop()
        check(["SELECT 1 FROM b"], [it["text"] for it in lines_of(alerts.read_text())], "alerts")
    with log_file() as log, Program(executable, "--alert", "kind=query", "--log", str(log),
                                    "--alert-command", "/there/is/none") as proxy:
        pair = Pair(proxy)
        pair.say("SELECT 1")
        proxy.hears("the program for alerts: No such file")
        pair.close()
        proxy.stop()


def checks():
    """Returns all of them, by their names."""
    return [("tables", check_tables), ("alerts", check_alerts),
            ("alerts that nobody takes", check_alerts_stay)]
