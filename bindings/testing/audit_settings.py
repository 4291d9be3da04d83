"""How bindings/audit takes other settings, goes over to another version, and begins under systemd."""

import os
import pathlib
import signal
import socket
import subprocess
import threading
import time

from audit_support import OK, Pair, Program, lines_of, log_file, wait_for
from recorded import SECONDS, check

READ = "the settings were read"


def has(file, text):
    """Returns whether a file has a text."""
    return file.exists() and text in file.read_text()


def is_over(pid):
    """Returns whether a process has ended, be it that nobody asked for its status."""
    try:
        return pathlib.Path(f"/proc/{pid}/stat").read_text().rpartition(")")[2].split()[0] == "Z"
    except (FileNotFoundError, ProcessLookupError):
        return True


def child_of(process):
    """Returns the number of the process that another one began, once there is one."""
    children = pathlib.Path(f"/proc/{process.pid}/task/{process.pid}/children")
    wait_for(lambda: children.read_text().split(), "a new process")
    return int(children.read_text().split()[0])


# ---- HUP ----------------------------------------------------------------------------------------


def check_reload(executable):
    """A HUP has filters, limits and the log change, and no connection is cut."""
    with log_file() as log:
        file, other = log.with_name("settings"), log.with_name("other")
        file.write_text(f"log = {log}\n")
        with Program(executable, "--config", str(file)) as proxy:
            pair = Pair(proxy)
            pair.say("SELECT 1")
            wait_for(lambda: has(log, '"SELECT 1"'), "a line in the first log")
            file.write_text(f"log = {other}\nuser = bob\nlongest = 1000\nconnections = 2\n")
            proxy.signal(signal.SIGHUP, READ)
            pair.say("SELECT 2")
            bob = Pair(proxy, user="bob")
            bob.say("SELECT '" + "x" * 2000 + "'")
            bob.say("SELECT 3")
            wait_for(lambda: has(other, '"SELECT 3"'), "a line in the other log")
            with proxy.ask() as refused:
                check(b"Too many connections", refused.recv(100)[7:], "one client too many")
            for it in (pair, bob):
                it.say("SELECT 4")
                it.close()
            proxy.stop()
        said = [it for it in lines_of(other.read_text()) if it["kind"] == "query"]
        check([("bob", 2009 + 1), ("bob", None), ("bob", None)],
              [(it["user"], it.get("length")) for it in said], "lines behind a HUP")
        check(False, has(log, "SELECT 2"), "whether the first log goes on")


def check_slow_reload(executable):
    """Where settings can't be read for a while clients are served, and a second HUP isn't lost."""
    with log_file() as log:
        file = log.with_name("settings")
        file.write_text(f"log = {log}\n")
        with Program(executable, "--config", str(file)) as proxy:
            file.unlink()
            os.mkfifo(file)
            proxy.process.send_signal(signal.SIGHUP)
            time.sleep(0.1)
            pair = Pair(proxy)
            pair.say("SELECT 1")
            proxy.process.send_signal(signal.SIGHUP)
            time.sleep(0.1)
            for _ in range(2):
                file.write_text(f"log = {log}\nuser = ann\n")
                proxy.hears(READ)
            pair.close()
            proxy.stop()


def check_bad_reload(executable):
    """What is wrong with a file is said, and all settings stay; some stay in any case."""
    with log_file() as log:
        file = log.with_name("settings")
        file.write_text(f"log = {log}\nuser = ann\n")
        with Program(executable, "--config", str(file)) as proxy:
            pair, bob = Pair(proxy), Pair(proxy, user="bob")
            stays = "the settings stay as they were: "
            for text, why in ((f"log = {log}\nlongest = what\n",
                               f"{file}, line 2: what is no such number"),
                              (f"log = {log.parent / 'none' / 'log'}\n",
                               "the log: No such file or directory (os error 2)"),
                              ("longest = 10\nheld = 10\n",
                               "--held: it has to be more than twice what --longest is")):
                file.write_text(text)
                check(stays + why, proxy.signal(signal.SIGHUP, stays), "what is said of a file")
            file.unlink()
            proxy.signal(signal.SIGHUP, stays)
            file.write_text(f"log = {log}\nuser = ann\nmetrics = 127.0.0.1:1\n")
            wanted = "--metrics changes by a USR2 or a new start only"
            check(wanted, proxy.signal(signal.SIGHUP, "--metrics"), "what can't change")
            proxy.hears(READ)
            for it in (pair, bob):
                it.say("SELECT 1")
                it.close()
            proxy.stop()
        check(["ann"], [it["user"] for it in lines_of(log.read_text()) if it["kind"] == "query"],
              "lines behind bad settings")


def check_reload_while_full(executable):
    """Clients that wait for a full log go on once a HUP says that lines may be lost."""
    with log_file() as log:
        file = log.with_name("settings")
        file.write_text("log = /dev/full\nlog-full = wait\nlog-held = 1\n")
        with Program(executable, "--config", str(file)) as proxy:
            pair = Pair(proxy)
            pair.client.settimeout(None)
            said = threading.Thread(target=lambda: [pair.say(f"SELECT {it}") for it in range(20)])
            said.start()
            proxy.hears("the log can't be written")
            file.write_text("log = /dev/full\nlog-full = pass\nlog-held = 1\n")
            proxy.signal(signal.SIGHUP, READ)
            said.join(SECONDS)
            check(False, said.is_alive(), "whether clients still wait")
            pair.close()
            proxy.stop(1)


# ---- USR2 ---------------------------------------------------------------------------------------


def check_upgrade(executable):
    """A USR2 has a new process take the clients. None is refused, and what runs ends in the old one."""
    with log_file() as log, Program(executable, "--log", str(log)) as proxy:
        opens, stops, refused, cut = Pair(proxy), threading.Event(), [], []
        opens.say("BEGIN", OK[:3] + b"\x03" + OK[4:])

        def connect():
            number = 0
            while not stops.is_set():
                number += 1
                try:
                    pair = Pair(proxy)
                    pair.say(f"SELECT {number}")
                    pair.close()
                except ConnectionRefusedError as error:
                    refused.append(error)
                except (OSError, ValueError) as error:
                    # The old process ends a connection that says nothing.
                    cut.append(error)

        connecting = threading.Thread(target=connect)
        connecting.start()
        proxy.signal(signal.SIGUSR2, "listening at")
        heir = child_of(proxy.process)
        proxy.hears("a new process takes the clients")
        before = log.read_text().count('"login"')
        wait_for(lambda: log.read_text().count('"login"') > before + 5, "clients of the new process")
        check(None, proxy.process.poll(), "the old process, whose transaction is open")
        opens.say("COMMIT")
        check(True, opens.is_over(), "the end of a transaction")
        check(0, proxy.process.wait(SECONDS), "the status of the old process")
        stops.set()
        connecting.join(SECONDS)
        check([], refused, "clients that are refused")
        check(True, len(cut) <= 1, f"clients that are cut: {cut}")
        os.kill(heir, signal.SIGTERM)
        wait_for(lambda: is_over(heir), "the end of the new process")
        records = lines_of(log.read_text())
        numbers = [it["connection"] for it in records if it["kind"] == "login"]
        check(len(numbers), len(set(numbers)), "numbers of connections")
        check(["BEGIN", "COMMIT"], [it["text"] for it in records if it["connection"] == 1
                                    and it["kind"] == "query"], "lines of the old process")


def check_bad_upgrade(executable):
    """Where the new process can't begin the old one goes on, and may be asked again."""
    with log_file() as log:
        file = log.with_name("settings")
        file.write_text("")
        with Program(executable, "--config", str(file)) as proxy:
            pair = Pair(proxy)
            for _ in range(2):
                file.write_text("what = 1\n")
                proxy.signal(signal.SIGUSR2, "the new process isn't ready: it ended by exit status: 2")
                pair.say("SELECT 1")
                Pair(proxy).close()
            file.write_text("")
            proxy.signal(signal.SIGUSR2, "listening at")
            heir = child_of(proxy.process)
            check(True, pair.is_over(), "the end of what says nothing")
            check(0, proxy.process.wait(SECONDS), "the status")
            Pair(proxy).close()
            os.kill(heir, signal.SIGINT)
            wait_for(lambda: is_over(heir), "the end of the new process")


# ---- systemd ------------------------------------------------------------------------------------


def check_systemd(executable):
    """systemd hands over a listener, and is told which process serves."""
    with log_file() as log, socket.create_server(("127.0.0.1", 0)) as listener, \
            socket.socket(socket.AF_UNIX, socket.SOCK_DGRAM) as told:
        name = str(log.with_name("notify"))
        told.bind(name)
        told.settimeout(SECONDS)
        words = [executable, "--listen", "127.0.0.1:1", "--upstream", "127.0.0.1:1"]
        # The number of a process that is to be is known by itself alone.
        begins = ["/bin/sh", "-c", 'LISTEN_PID=$$ exec "$@"', "sh", *words]
        keeps = 3

        def hand_over():
            os.dup2(listener.fileno(), keeps)

        with subprocess.Popen(begins, stderr=subprocess.PIPE, text=True, pass_fds=[keeps],
                              preexec_fn=hand_over,
                              env={**os.environ, "LISTEN_FDS": "1", "NOTIFY_SOCKET": name}) as ran:
            said = ran.stderr.readline()
            check(listener.getsockname()[1], int(said.rpartition(":")[2]), "the port")
            wanted = f"READY=1\nMAINPID={ran.pid}\n"
            check(wanted, told.recv(1000).decode(), "what systemd is told at the start")
            ran.send_signal(signal.SIGTERM)
            check("STOPPING=1\n", told.recv(1000).decode(), "what systemd is told at the end")
            check(0, ran.wait(SECONDS), "the status")


def checks():
    """Returns all of them, by their names."""
    return [("HUP", check_reload), ("HUP with bad settings", check_bad_reload),
            ("HUP with slow settings", check_slow_reload),
            ("HUP while the log is full", check_reload_while_full), ("USR2", check_upgrade),
            ("USR2 without a new process", check_bad_upgrade), ("systemd", check_systemd)]
