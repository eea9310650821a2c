"""A plain FIX client that logs on to the example host over TCP and checks what comes back.

    tests/serve_client.py COMMAND..       starts COMMAND --serve 0, talks to it, and fails loudly
"""
import datetime
import re
import socket
import subprocess
import sys
import time

PATIENCE = 30
OF_THE_CLOCK = ("0", "1")       # Heartbeats and Test Requests that a slow machine's host sends of its own accord


def now():
    return datetime.datetime.now(datetime.timezone.utc).strftime("%Y%m%d-%H:%M:%S.%f")


def framed(body):
    body = body.replace("|", "\x01").encode()
    front = b"8=FIXT.1.1\x019=%d\x01" % len(body) + body
    return front + b"10=%03d\x01" % (sum(front) % 256)


def message(msg_type, number, rest="", sender="MM"):
    return framed(f"35={msg_type}|49={sender}|56=GW|34={number}|52={now()}|{rest}")


LOGON = "98=0|108=2|1137=9|"
REQUEST = "568=R1|569=0|22=8|48=133215|580=1|75=20240102|"
BOOK = ("T-0001", "T-0002", "T-0004")       # of the example's trades those that can be reported


class Client:
    """One connection, with the bytes that came and are not taken yet, and the first messages by their numbers."""

    def __init__(self, port):
        self.line = socket.create_connection(("127.0.0.1", port), timeout=PATIENCE)
        self.came = b""
        self.firsts = {}

    def send(self, data, piece=None):
        for at in range(0, len(data), piece or len(data)):
            self.line.sendall(data[at:at + (piece or len(data))])
            if piece:
                time.sleep(0.002)

    def receive(self):
        """The fields of the next message, checked as a frame."""
        while True:
            whole = re.match(rb"8=FIXT\.1\.1\x019=(\d+)\x01", self.came)
            if whole and len(self.came) >= whole.end() + int(whole[1]) + 7:
                break
            more = self.line.recv(4096)
            assert more, f"the host hung up; pending {self.came!r}"
            self.came += more
        end = whole.end() + int(whole[1])
        frame, self.came = self.came[:end + 7], self.came[end + 7:]
        assert frame[end:] == b"10=%03d\x01" % (sum(frame[:end]) % 256), frame
        fields = dict(field.split("=", 1) for field in frame.decode().split("\x01")[:-1])
        if fields.get("43") != "Y":
            self.firsts[int(fields["34"])] = fields
        return fields

    def expect(self, **wanted):
        self.hold(self.receive(), wanted)

    def expect_answer(self, **wanted):
        """The next message that is not of the clock."""
        got = self.receive()
        while got["35"] in OF_THE_CLOCK and got["35"] != wanted["t35"]:
            got = self.receive()
        self.hold(got, wanted)

    def hold(self, got, wanted):
        for tag, value in wanted.items():
            assert got.get(tag[1:]) == value, f"{tag[1:]}: wanted {value}, got {got}"
        assert got["49"] == "GW" and got["56"] == "MM", got

    def expect_end(self):
        assert not self.came and self.line.recv(1) == b"", "the host did not hang up"
        self.line.close()


def turned_away(port, data):
    """A connection whose first message gets it no answer but the end."""
    client = Client(port)
    client.send(data)
    client.expect_end()


def talk(client, port):
    client.send(message("A", 1, LOGON), piece=7)
    client.expect(t35="A", t34="1", t98="0", t108="2", t1137="9")
    turned_away(port, message("A", 1, LOGON + "141=Y|"))    # its line is up
    turned_away(port, message("A", 1, LOGON, sender="XX"))
    turned_away(port, message("0", 2))
    client.send(b"\xff\x00noise" + message("1", 2, "112=HELLO|"))
    client.expect_answer(t35="0", t112="HELLO")
    client.expect_answer(t35="0", t112=None)                # the clock's own Heartbeat, two seconds later
    torn = message("0", 3)
    client.send(torn[:40] + message("F", 3, f"11=C1|41=O1|54=1|48=133215|22=8|60={now()}|"), piece=50)
    client.send(message("0", 9))
    client.expect_answer(t35="2", t7="4", t16="0")
    ask_for_trades(client)
    client.send(message("5", 6) + message("0", 7) * 400)    # what lies unread must not take the answer away
    client.expect_answer(t35="5", t1409="4")


def ask_for_trades(client):
    """Reports as they are asked for, and then everything again: the reports as possible duplicates, gap fills between."""
    client.send(message("AD", 4, REQUEST))
    for trade in BOOK:
        client.expect_answer(t35="AE", t571=trade, t43=None)
    client.send(message("2", 5, "7=1|16=0|"))
    number = 1
    while number <= max(client.firsts):
        number = taken_again(client, number)


def taken_again(client, number):
    """The next message of a replay, which goes on with this number; the number that it goes on with then."""
    got = client.receive()
    if got["35"] in OF_THE_CLOCK:
        return number                       # it went out before the host read what we ask for
    assert got["43"] == "Y" and int(got["34"]) == number, f"wanted {number} again, got {got}"
    if got["35"] == "4":
        assert got["123"] == "Y" and got["122"] == got["52"], got
        filled = [one for one in range(number, int(got["36"])) if client.firsts[one]["35"] == "AE"]
        assert not filled, f"the reports {filled} are lost: {got}"
        return int(got["36"])
    first = client.firsts[number]
    assert got["35"] == "AE" and got["122"] == first["52"] and got["52"] > first["52"], got
    assert lasting(got) == lasting(first), f"first {first}, again {got}"
    return number + 1


def lasting(fields):
    """What a report has the second time as it had it the first time."""
    return {tag: value for tag, value in fields.items() if tag not in ("9", "10", "43", "52", "122")}


def fall_silent(client):
    """A peer that logs on again and says nothing more is asked, and then logged out."""
    client.send(message("A", 7, LOGON))
    client.expect(t35="A", t108="2")
    got = client.receive()
    while got["35"] == "0":
        got = client.receive()
    assert got["35"] == "1" and got["112"] == f"TEST-{got['34']}", got
    client.expect_answer(t35="5", t1409="101")


def main():
    host = subprocess.Popen([*sys.argv[1:], "--serve", "0"], stdout=subprocess.PIPE, text=True)
    try:
        port = int(re.fullmatch(r"listening on 127\.0\.0\.1:(\d+)\n", host.stdout.readline())[1])
        first = Client(port)
        talk(first, port)
        second = Client(port)                               # before the first goes: the host ends with its last line
        first.expect_end()
        fall_silent(second)
        second.expect_end()
        ledger = host.communicate(timeout=PATIENCE)[0]
    finally:
        host.kill()
    assert host.returncode == 0, f"the host ended with {host.returncode}"
    assert ", 2 delivered, " in ledger and "Reported: 3 trades." in ledger, ledger
    print("serve: ok")


if __name__ == "__main__":
    main()
