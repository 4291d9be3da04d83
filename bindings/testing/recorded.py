"""Recorded connections through an auditing proxy; audit.py calls this.

A folder has recorded connections. NAME.client and NAME.server are the bytes of both sides, and
NAME.events is what each payload is. Here are both ends: a client and a server that send what was
recorded. What each gets has to be what the other sent, and what the proxy prints, what the events
say. With `--on-fault cut` a connection that can't be read further is ended. It prints no password but
with `--secrets`.
"""

import contextlib
import json
import re
import socket
import struct
import subprocess
import threading
from typing import NamedTuple

import with_passwords

SECONDS = 60
# The first bytes of executions, which may be laid out as none.
EXECUTIONS = {b"\x17": "execute", b"\xfa": "bulk execute"}
CLOSE, RESET_CONNECTION = b"\x19", b"\x1f"
# The first byte of a change of user, which may be laid out as none.
CHANGE_USER = b"\x11"

# How MySQL answers a client that leaves without a word.
LEFT = ["error 1158"]
# Reasons why a connection isn't read any further.
UNREAD = ("Over Secure", "Over Compressed", "Over Dump", "Over Clone", "Fault")


# ---- What events say ----------------------------------------------------------------------------


def values_in(text):
    """Reads a list of a line: numbers, bytes, words, and lists of these."""
    stack = [[]]
    for word in re.findall(r"[()]|[^ ()]+", text):
        if word == "(":
            stack.append([])
        elif word == ")":
            done = stack.pop()
            stack[-1].append(done)
        else:
            stack[-1].append(word)
    return stack[0]


def micros_of(number):
    """Returns a second's fraction as it is printed."""
    return f".{number:06}" if number else ""


def value_of(shown):
    """Returns a value of a line in the form of the proxy's JSON."""
    if isinstance(shown, str):
        return {"-": None, "default": {"indicator": "default"},
                "ignore": {"indicator": "ignore"}}[shown]
    kind, data = shown
    if kind == "i":
        return int(data)
    if kind == "b":
        return json_text(bytes.fromhex(data[1:]))
    if kind in ("f32", "f64"):
        return struct.unpack(">f" if kind == "f32" else ">d", bytes.fromhex(data))[0]
    if kind == "d":
        year, month, day, hour, minute, second, micros = map(int, data)
        time = f" {hour:02}:{minute:02}:{second:02}" if hour or minute or second or micros else ""
        return f"{year:04}-{month:02}-{day:02}{time}{micros_of(micros)}"
    negative, days, hours, minutes, seconds, micros = map(int, data)
    return (f"{'-' * negative}{24 * days + hours:02}:{minutes:02}:{seconds:02}{micros_of(micros)}")


def json_text(data):
    """Returns a text in the form of the proxy's JSON."""
    try:
        return data.decode()
    except UnicodeDecodeError:
        return {"hex": data.hex()}


class Event:
    """A line of events."""

    def __init__(self, line):
        self.side, self.name, *rest = line.split(" ", 2)
        fields = re.findall(r"(\w+)=(.*?)(?= \w+=|$)", rest[0] if rest else "")
        self.fields = dict(fields)

    def text(self, name):
        """Returns a field that has bytes."""
        return json_text(bytes.fromhex(self.fields[name][1:]))

    def number(self, name):
        """Returns a field that is a number."""
        return int(self.fields[name])


# Commands that are told by a name, and the field that is their text.
NAMES = {"Login": ("login", None), "CutOffLogin": ("login", None),
         "ChangeUser": ("change user", None), "Query": ("query", "text"),
         "Prepare": ("prepare", "text"), "Execute": ("execute", None),
         "BulkExecute": ("bulk execute", None), "Fetch": ("fetch", None),
         "ResetStatement": ("reset", None), "ResetConnection": ("reset connection", None),
         "Ping": ("ping", None), "InitDb": ("init db", "schema"),
         "FieldList": ("field list", "table"), "CreateDb": ("create db", "schema"),
         "DropDb": ("drop db", "schema"), "Refresh": ("refresh", None),
         "Shutdown": ("shutdown", None), "Statistics": ("statistics", None),
         "ProcessInfo": ("process info", None), "ProcessKill": ("process kill", None),
         "Debug": ("debug", None), "SetOption": ("set option", None),
         "BinlogDump": ("binlog dump", "file"), "BinlogDumpGtid": ("binlog dump", "file"),
         "TableDump": ("table dump", "table"), "RegisterSlave": ("register replica", "host"),
         "Clone": ("clone", None), "Other": ("unknown", None)}


class Told(NamedTuple):
    """What is told of a command: its name, its text, its values, and the results of its reply; and
    the connection's user and database."""

    kind: str
    text: object
    values: object
    results: list
    who: object = None


class Teller:
    """What the proxy has to tell of events."""

    def __init__(self, secrets):
        self.secrets = secrets  # whether they are told
        self.told, self.rows, self.prepared, self.last, self.asked = [], None, {}, None, None
        # What user and database become by each command, where the server agrees.
        self.becomes = []

    def take(self, event):
        """Takes an event."""
        if event.side == "client" and event.name in NAMES:
            self.end_rows()
            if event.name in ("ChangeUser", "ResetConnection"):
                self.prepared.clear()
            if event.name == "Prepare":
                self.last = None
            self.told.append(self.command(event))
            self.becomes.append(self.change(event))
        elif event.name == "Close":
            self.prepared.pop(self.statement(event.number("id")), None)
        elif event.name in ("Rejected", "Farewell"):
            self.end_rows()
            name = {"Rejected": "refused", "Farewell": "farewell"}[event.name]
            self.told.append(Told(name, None, None, [f"error {event.number('code')}"]))
            self.becomes.append(None)
        else:
            self.result(event)

    def change(self, event):
        """Returns the user and the database that a command asks for."""
        if event.name in ("Login", "ChangeUser"):
            return event.text("user"), event.text("database") if event.fields["database"] != "-" \
                else ""
        return (None, event.text("schema")) if event.name == "InitDb" else None

    def whole(self):
        """Returns all that is told, with users and databases."""
        self.end_rows()
        who, whole = ("", ""), []
        for told, becomes in zip(self.told, self.becomes):
            if becomes and (told.kind == "login" or "affected" in str(told.results[-1:])):
                who = who[0] if becomes[0] is None else becomes[0], becomes[1]
            whole.append(told._replace(who=who))
        return whole

    def statement(self, number):
        """Returns the number of a statement, which may be said to be the last one."""
        return self.last if number == 0xFFFFFFFF else number

    def command(self, event):
        """Returns a command without its reply."""
        kind, field = NAMES[event.name]
        text = event.text(field) if field else None
        values = None
        if event.name in ("Execute", "BulkExecute"):
            text = self.prepared[self.statement(event.number("id"))]
        if event.name == "Execute":
            values = [value_of(it) for it in values_in(event.fields["parameters"])[0]]
        elif event.name == "BulkExecute":
            values = [list(map(value_of, row)) for row in values_in(event.fields["sets"])[0]]
        elif event.name == "Other":
            byte = event.fields["byte"]
            first = b"" if byte == "-" else bytes([int(byte)])
            data = bytes.fromhex(event.fields["data"][1:])
            text = json_text(first + data)
            number = int.from_bytes(data[:4], "little") if len(data) > 3 else None
            number = self.statement(number)
            if first == CLOSE:
                self.prepared.pop(number, None)
            elif first == RESET_CONNECTION:
                self.prepared.clear()
            if first in EXECUTIONS and number in self.prepared:
                kind, text = EXECUTIONS[first], self.prepared[number]
            if first == CHANGE_USER and not self.secrets:
                text = None
        self.asked = text
        return Told(kind, text or None if kind not in ("query", "prepare", "init db", "unknown")
                    else text, values, [])

    def end_rows(self):
        """Ends a result's rows."""
        if self.rows is not None:
            self.told[-1].results.append(f"rows {self.rows}")
        self.rows = None

    def result(self, event):
        """Takes what answers a command."""
        name, results = event.name, self.told[-1].results if self.told else []
        if name in ("Row", "RawRow") or name == "Column" and "default" in event.fields:
            self.rows = (self.rows or 0) + 1
        elif name == "ColumnCount":
            self.rows = 0
        elif name == "RowsEnd":
            if self.rows is None and self.told[-1].kind != "fetch":
                results.append(f"affected {event.number('affected')}")
            else:
                self.rows = self.rows or 0
                self.end_rows()
        elif name in ("Ok", "Accepted"):
            results.append(f"affected {event.number('affected')}")
        elif name in ("Error", "Denied"):
            self.end_rows()
            results.append(f"error {event.number('code')}")
        elif name == "Prepared":
            self.last = event.number("id")
            self.prepared[self.last] = self.asked
            results.append(f"statement {self.last}, {event.number('params')}, "
                           f"{event.number('columns')}")
        elif name == "FileRequest":
            results.append(["file", event.text("name"), 0])
        elif name == "FileData":
            results[-1][2] += len(event.fields["data"]) // 2
        elif name == "Line":
            results.append(f"line {event.text('data')}")


def told_by(lines, secrets):
    """Returns what the proxy has to tell of a connection's events."""
    teller = Teller(secrets)
    for line in lines:
        if not line.startswith("end "):
            teller.take(Event(line))
    return teller.whole()


def result_in(result):
    """Returns a result of the proxy's JSON in the form of `told_by`."""
    if "rows" in result or "cursor" in result:
        return f"rows {result.get('rows', 0)}"
    if "affected" in result:
        return f"affected {result['affected']}"
    if "error" in result:
        return f"error {result['error']}"
    if "statement" in result:
        return f"statement {result['statement']}, {result['parameters']}, {result['columns']}"
    if "file" in result:
        return ["file", result["file"], result["bytes"]]
    return f"line {result['line']}"


def told_in(record):
    """Returns what a line of the proxy's JSON tells of a command."""
    return Told(record["kind"], record.get("text"), record.get("values"),
                [result_in(it) for it in record["results"]], (record["user"], record["database"]))


# ---- Both ends ----------------------------------------------------------------------------------


class End(threading.Thread):
    """One end of a connection, which sends its bytes in pieces and takes what comes."""

    def __init__(self, stream, sent, at):
        super().__init__()
        self.stream, self.sent, self.at, self.got = stream, sent, at, b""
        self.start()

    def send(self):
        """Sends its bytes, and then no more."""
        done = 0
        with contextlib.suppress(OSError):
            while done < len(self.sent):
                piece = self.sent[done:][:self.at.choice((1, 7, 100, 5000, 100000))]
                self.stream.sendall(piece)
                done += len(piece)
            self.stream.shutdown(socket.SHUT_WR)

    def run(self):
        sender = threading.Thread(target=self.send)
        sender.start()
        with contextlib.suppress(OSError):
            piece = self.stream.recv(1 << 16)
            while piece:
                self.got += piece
                piece = self.stream.recv(1 << 16)
        sender.join()


class Proxy:
    """The proxy, before a server of our own."""

    def __init__(self, executable, *options, **how):
        self.listener = socket.create_server(("127.0.0.1", 0))
        self.listener.settimeout(SECONDS)
        upstream = f"127.0.0.1:{self.listener.getsockname()[1]}"
        self.process = subprocess.Popen([executable, "127.0.0.1:0", upstream, "--json", *options],
                                        stdout=subprocess.PIPE, stderr=subprocess.PIPE, text=True,
                                        **how)
        self.port = int(self.process.stderr.readline().rpartition(":")[2])

    def __enter__(self):
        return self

    def __exit__(self, *_):
        self.process.terminate()
        self.process.wait(SECONDS)
        self.listener.close()

    def ask(self):
        """Connects a client."""
        stream = socket.create_connection(("127.0.0.1", self.port))
        stream.settimeout(SECONDS)
        return stream

    def connect(self, client, server, at):
        """Has both ends send these bytes. Returns what each got, and what the proxy printed."""
        with socket.create_connection(("127.0.0.1", self.port)) as asking:
            answering, _ = self.listener.accept()
            with answering:
                ends = [End(asking, client, at), End(answering, server, at)]
                records = []
                while not records or records[-1]["kind"] != "end":
                    records.append(json.loads(self.process.stdout.readline()))
                for end in ends:
                    end.join(SECONDS)
                    if end.is_alive():
                        raise ValueError("an end isn't told that the other one has ended")
        return ends[0].got, ends[1].got, records


def check(wanted, found, what):
    """Fails where what was found differs."""
    if wanted != found:
        raise ValueError(f"{what}: {found!r:.600}\nin place of {wanted!r:.600}")


def check_recording(proxy, path, at, options):
    """Sends a recording through the proxy, and compares all that comes out."""
    client, server = (path.with_suffix(it).read_bytes() for it in (".client", ".server"))
    *lines, end = path.read_text().splitlines()
    cuts = "cut" in options
    got, asked, records = proxy.connect(client, server, at)
    kinds = [it["kind"] for it in records]
    told = [told_in(it) for it in records if it["kind"] not in ("end", "unread", "cut")]
    wanted = told_by(lines, "--secrets" in options)
    if wanted[-1:] and wanted[-1].results == LEFT and "farewell" not in kinds:
        # What MySQL answers a client that has left is no error, where its end was seen first.
        wanted.pop()
    # A program may also tell commands that passed and that nothing answers.
    more = [it.results for it in told[len(wanted):]]
    check((wanted, [[]] * len(more)), (told[:len(wanted)], more), f"{path.stem}, what is told")
    is_unread = end[4:].startswith(UNREAD)
    check(["cut" if cuts else "unread"] if is_unread else [],
          [it for it in kinds if it in ("cut", "unread")], f"{path.stem}, what isn't read")
    if is_unread and cuts:
        check(True, client.startswith(asked) and server.startswith(got), f"{path.stem}, bytes")
        check(True, (asked, got) != (client, server), f"{path.stem}, the cut")
    elif end.startswith("end Unfinished"):
        # A front of a packet isn't passed on.
        check(True, client.startswith(asked) and server.startswith(got), f"{path.stem}, bytes")
    else:
        check((client, server), (asked, got), f"{path.stem}, bytes")
    return len(told)


def check_flood(proxy, path, at):
    """A server goes on behind the end of a client whose turn it is. What has no room arrives, and
    it is told that it isn't read; a little waits for the client, and ends with the connection."""
    client, server = (path.with_suffix(it).read_bytes() for it in (".client", ".server"))
    more = b"".join(b"\x05\0\0" + bytes([number % 100 + 100]) + b"\0what" for number in range(9000))
    got, asked, records = proxy.connect(client, server + more, at)
    check((client, server + more), (asked, got), "a flood, bytes")
    check(["unread", "end"], [it["kind"] for it in records][-2:], "a flood, what is told")
    got, asked, records = proxy.connect(client, server + more[:90], at)
    check((client, True), (asked, got.startswith(server)), "a little more, bytes")
    check("end", records[-1]["kind"], "a little more, what is told")


def check_secrets(executable, path, at):
    """No password of a statement, of a value or of an error is printed, but with `--secrets`."""
    client, server = with_passwords.conversation(
        *(path.with_suffix(it).read_bytes() for it in (".client", ".server")))
    for options, found in (([], []), (["--secrets"], list(with_passwords.PASSWORDS))):
        with Proxy(executable, *options) as proxy:
            got, asked, records = proxy.connect(client, server, at)
        check((client, server), (asked, got), "bytes of passwords")
        check(found, with_passwords.leaks(json.dumps(records)), "the passwords that are printed")
        check("quit", records[-1]["text"], "the end of a connection with passwords")
    check([], [it for it in records if it["kind"] == "unread"], "what isn't read of passwords")
    with Proxy(executable) as proxy:
        records = proxy.connect(client, server, at)[2]
    masked = "ALTER USER ann IDENTIFIED BY '*****' '*****'"
    check([masked, "*****"], [records[2]["text"], records[2]["results"][0]["message"]], "a mask")
    check([["*****"]] * 2, [it["values"] for it in records if it["kind"] == "execute"], "values")
    check("SELECT 'shown'", records[-2]["text"], "a text without a password")
