"""The driver's request lines of Q-4 and their answers: step and report with a store, replay; and stores that cannot be
read."""
import model

from .basics import AT, NONE_OPEN, body, framed, same
from .report_lines import SHORTEST
from .reporting import SHORTEST_FRAME

RECORD = "4757 4d4d 1 5 3 30 7 0 0" + NONE_OPEN
NOTHING = framed(body("3")).hex()
KEPT = SHORTEST_FRAME.hex()


def test_stores():
    for word, told in (("32768", "32768"), ("32768,0=41", "32768,0=41"), ("32768,63=42,0=41", "32768,0=41,63=42"),
                       ("32768,5=-", "32768"), ("32768,5=0000", "32768"), ("32768,5=410000", "32768,5=41"),
                       ("32768,5=000041", "32768,5=000041"), (f"32768,17={'ff' * 512}", f"32768,17={'ff' * 512}")):
        same(model.answer(f"step {AT} 600 {NOTHING} {RECORD} {word}"), f"ok 0 - 4757 4d4d 1 6 3 30 7 0 0{NONE_OPEN} {told}")
    for word in ("0", "1", "512", "32767", "32769", "1048576", "1,0=41", "32767,63=" + "41" * 511, "32769,64=41"):
        same(model.answer(f"step {AT} 600 {NOTHING} {RECORD} {word}"), f"refusal 14 {RECORD}")


def test_unreadable_stores():
    for word in ("", "-", "x", "32768,", "32768,0", "32768,0=", "32768,=41", "32768,0=4", "32768,0=4G", "32768,0=4A", ",0=41",
                 "32768,00=41", "32768,-1=41", "32768,64=41", "32768,64=-", f"32768,0={'41' * 513}", "32768,0=41,0=42",
                 "32768,0=-,0=-", "32768,0=41,", "32768,,0=41", "032768", "1048577", "32767,63=" + "41" * 512, "0,0=-",
                 "32768,0=41=42", "32768;0=41", "32768,18446744073709551616=41", "32768,0=41 32768"):
        for front, back in (f"step {AT} 600 {NOTHING} {RECORD}", ""), (f"replay {AT} 600 {RECORD}", ""):
            same(model.answer(f"{front} {word}{back}"), "error")
        same(model.answer(f"report {AT} 600 {RECORD} {word}"), "error")


def test_replay():
    store = f"32768,9={KEPT}"
    same(model.answer(f"report {AT} 512 {RECORD} 32768,0=41 {SHORTEST}"),
         f"ok {KEPT} 4757 4d4d 1 5 4 30 {AT} 0 0{NONE_OPEN} 32768,0={KEPT}")
    same(model.answer(f"replay {AT} 600 {RECORD} {store}"), f"ok - {RECORD}")
    started = f"4757 4d4d 1 5 5 30 7 3 4{NONE_OPEN}"
    told = model.answer(f"replay {AT} 600 {started} {store}").split(" ")
    same((told[0], told[2:]), ("ok", f"4757 4d4d 1 5 5 30 {AT} 4 4{NONE_OPEN}".split(" ")))
    same(bytes.fromhex(told[1]).startswith(b"8=FIXT.1.1\x019=167\x0135=AE\x0149=GW\x0156=MM\x0134=3\x0143=Y\x0152="), True)
    same(model.answer(f"replay {AT} 599 {started} {store}"), f"refusal 6 {started}")
    same(model.answer(f"replay {AT} 599 {started} 32767"), f"refusal 14 {started}")
    beyond = f"4757 4d4d 1 5 5 30 7 3 5{NONE_OPEN}"
    same(model.answer(f"replay {AT} 0 {beyond} {store}"), f"refusal 11 {beyond}")
    same(model.answer(f"report {AT} 512 {started} {store} {SHORTEST}"), f"refusal 13 {started}")
    for line in ("replay", f"replay {AT} 600 {RECORD}", f"replay {AT} 600 {RECORD} {store} ", f"replay {AT} 1048577 {RECORD} {store}",
                 f"replay {AT} {RECORD} {store}", f"step {AT} 600 {NOTHING} {RECORD}", f"tick {AT} 600 {RECORD} {store}"):
        same(model.answer(line), "error")
