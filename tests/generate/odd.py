"""Lines that make no sense: listed ones, and requests with one character or one word changed."""
from model import LANDED

from .basics import AT_REST, LENT, NONE_OPEN
from .frames import read_one
from .gaps import step_too_high
from .records import new_session, reconnect, tick
from .replays import replay_some, report_stored
from .reports import report_clean, report_parties
from .steps import step_any
from .verdicts import verdict_clean
from .writes import write_clean

ODD_LINES = ("", " ", "read", "read ", " read -", "read  -", "read - -", "READ -", "read 3", "read 0A", "read 3G",
             "read --", "read -\r", "read\t-", "read -\0", "read \x80", "read 0x30", "fixt", "fixt ",
             "fixt fixt read -", "fix42 read -", "Fixt read -", "verdict", "fields", "hello", "new 41", "new",
             "new 41 42 43", "stream - ", "stream  -", "stream - 3", "write", "write 512", "write 512 3",
             "write x 30", "write 512 30 34", "write 512 30 34=", "write 512 30 34=1", "write 512 30 34=n",
             "write 512 30 34=n01", "write 512 30 34=n-1", "write 512 30 34=b31", "write 512 30 49=n1",
             "write 512 30 49=b", "write 512 30 49=b4", "write 512 30 034=n1", "write 512 30 =n1",
             "write 512 30 34=n1 34=n1", "write 512 30 49=b41 49=b-", "write 512 41 98=n0", "write 512 41 1137=n9",
             "write 512 - 9999=c1", "write 512 30 9999=n1 9999=b-", "write 512 30 34=N1", "write 512 30 49=B41",
             "write 1048576 30", "write 1048577 30", "write 18446744073709551615 30", "write 512 30 0=n0",
             "write 512 30 18446744073709551616=n0", "write 512 30 34=n18446744073709551616",
             "write 512 30 34=n99999999999999999999999999", *(f"tick {front} 47 4d {words}{AT_REST}" for front, words in (
                 ("0 600", "0 1 1 30"), ("0 600", "0 1 1 30 0 0"), ("0 1048577", "0 1 1 30 0"), ("0 1048576", "0 1 1 30 0"),
                 ("00 600", "0 1 1 30 0"), ("0 0600", "0 1 1 30 0"), ("- 600", "0 1 1 30 0"),
                 ("18446744073709551616 600", "0 1 1 30 0"))),
             *(f"step {front} 47 4d {words}{AT_REST}{LENT}" for front, words in (
                 ("0 600 -", "0 1 1 30"), ("0 600 3", "0 1 1 30 0"), ("0 1048577 -", "0 1 1 30 0"))),
             *(f"reconnect {words}{AT_REST}" for words in (
                 "47 4d 0 1 1 30", "47 4d 0 1 1 30 +1", "47 4d -0 1 1 30 1", "4 4d 0 1 1 30 1", "47 4D 0 1 1 30 1",
                 "47 4d 0 1 1 30 1 ", "47 4d 0 1 1 30 1a")))
CHANGED = (step_any, tick, reconnect, write_clean, verdict_clean, read_one, new_session)
if 1 in LANDED:
    ON = f"47 4d 1 1 1 30 0{AT_REST}{LENT}"
    ODD_LINES += ("landed", "landed ", "landed 1", "fixt landed", "Landed", "report",
                  f"report 0 512 47 4d 1 1 1 30{AT_REST}{LENT}", f"report 0 512 {ON}", f"fixt report 0 0 {ON}",
                  f"report 0 1048577 {ON}", f"report 0 1048576 {ON}", f"report 00 512 {ON}", f"report 0 512 {ON} ",
                  "report-values", "report-values -", "report-values - -", "report-values 3", "report_values -",
                  *(f"report 0 512 {ON} {words}" for words in (
                      "571", "571=", "571=b", "571=b4", "571=bA1", "571=n1", "571=d1.0", "0571=b41", "=b41",
                      "571=b41 571=b41", "571=b- 571=b-", "31=b31", "31=d", "31=d1", "31=d1.", "31=d.1", "31=d.",
                      "31=d01.0", "31=d1.00", "31=d-1.0", "31=d1.0.0", "31=n1", "31=D1.0",
                      "31=d18446744073709551616.0", "32=d0.18446744073709551616",
                      "32=d18446744073709551615.18446744073709551615", "32=d1.0 32=d1.0", "9999=n1", "9999=x",
                      "9999=d1", "9999=d1.0 9999=b-", "553=b", "448=b41", "453=d1.0", "party", "party=", "party=41",
                      "party=41,44", "party=41,44,31", "party=41,44,31,", "party=41,44,31,32", "party=,44,31",
                      "party=-,-,-", "party=41,,31", "party=b41,44,31", "Party=41,44,31", "party=41,44,3",
                      "party =41,44,31", "18446744073709551616=b-", "0=b-", " 571=b41", "571=b41 ")))
    CHANGED += (report_clean, report_parties)
if 4 in LANDED:
    RUNNING = f"47 4d 1 1 9 30 0 2 8{NONE_OPEN}"
    ODD_LINES += ("replay", f"replay 0 600 {RUNNING}", f"replay 0 600 {RUNNING} 32768", f"fixt replay 0 600 {RUNNING} 32768",
                  f"replay 0 600 {RUNNING} 32768 ", f"replay 0 600 {RUNNING} 32768 32768", f"replay 0 {RUNNING} 32768",
                  f"replay 0 600 {RUNNING} 8 32768", f"tick 0 600 {RUNNING} 32768", f"step 0 600 - {RUNNING}",
                  f"reconnect {RUNNING}", f"reconnect {RUNNING} 32768", f"reconnect 47 4d 1 1 9 30 0 2{NONE_OPEN}",
                  *(f"replay 0 600 {RUNNING} {store}" for store in (
                      "-", "x", "0", "1", "32767", "32769", "1048576", "1048577", "032768", "32768,", "32768,0", "32768,0=",
                      "32768,=41", "32768,0=4", "32768,0=4G", "32768,0=4A", ",0=41", "32768,00=41", "32768,-1=41", "32768,63=41",
                      "32768,64=41", "32768,64=-", f"32768,0={'41' * 512}", f"32768,0={'41' * 513}", "32768,0=41,0=42",
                      "32768,0=-,0=-", "32768,0=-", "32768,0=00", "32768,1=41,0=42", "32768,0=41,", "32768,,0=41", "32768;0=41",
                      "32768,0=41=42", "32768,18446744073709551616=41", "32768,0=41,1=4", f"32767,63={'41' * 511}",
                      f"32767,63={'41' * 512}", "0,0=-", "1,0=-", "1,0=41", "1,0=4142", "1048576,2047=41", "1048576,2048=41")))
    CHANGED += (replay_some, report_stored)
if 5 in LANDED:
    RESTING = "47 4d 1 5 9 30 0 0 0"
    ODD_LINES += tuple(f"{request} {RESTING}{words}" for request in ("reconnect", "tick 0 600") for words in (
        "", " 0", " 0 0 0", " 0 0 0 0 0", " 0 0 0 0 ", " 0 0 0 -", " - 0 0 0", " 0 00 0 0", " 1 5 7 -1",
        " 1 5 7 18446744073709551616", " 1 5 7 18446744073709551615", " 18446744073709551615 5 7 0",
        " 18446744073709551616 5 7 0", " 1 5 7 0 32768"))
    CHANGED += (step_too_high,)


def error_listed(r):
    yield r.choice(ODD_LINES)


def error_by_chance(r):
    """Any request with one character or one word of it changed; much of it stays readable."""
    line = next(r.choice(CHANGED)(r))
    words = line.split(" ")
    at, spot = r.randrange(len(words)), r.randrange(len(line))
    word = r.choice(("", "-", "0", "00", "18446744073709551616", "18446744073709551615", "3g"))
    yield r.choice((
        line[:spot] + r.choice("0gAZ- =nb+." + ("d," if 1 in LANDED else "")) + line[spot + 1:],
        line[:spot] + line[spot + 1:],
        " ".join(words[:at] + words[at + 1:]),
        " ".join(words[:at] + [words[at]] + words[at:]),
        " ".join(words[:at] + [word] + words[at + 1:]),
    ))


# How often each comes, beside the others of mixture.py.
WEIGHTS = {error_listed: 1.5, error_by_chance: 1}
