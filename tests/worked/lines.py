"""Request lines and their answers, and lines that cannot be read."""
import model

from .basics import AT_REST, LENT, NOW, ROOM, same


def test_answers():
    for line, wanted in {
            "read -": "refusal 1 0",
            "fixt read -": "refusal 1 0",
            "stream": "frames pending -",
            "stream - -": "frames pending -",
            "stream 38 3d": "frames pending 383d",
            "fields 33353d0101": "fields 35=- !=-",
            "fields 33353d3001": "fields 35=30",
            "fields -": "refusal 10",
            "verdict 33353d0101": "finding 11 35",
            "verdict 33353d01": "refusal 10",
            "new 4757 4d4d": "ok 4757 4d4d 0 1 1 30 0" + AT_REST,
            "new - 4d4d": "refusal 11 - - 2 1 1 30 0" + AT_REST,
            "write 0 30": "refusal 8",
            "write 0 - 9999=n1 9999=b-": "refusal 8",
            "write 0 30 49=b47 56=b4d 34=n1 52=b" + NOW.encode().hex(): "refusal 9",
            }.items():
        same(model.answer(line), wanted)


def test_answers_on_a_record():
    for request, record, wanted, left in (
            ("reconnect", "4757 4d4d 2 5 6 7 8", "ok", "4757 4d4d 0 5 6 7 8"),
            ("reconnect", "41" * 12 + " 4d4d 2 5 6 7 8", "refusal 11", None),
            ("reconnect", "4757 4d4d 18446744073709551615 5 6 7 8", "refusal 11", None),
            (f"tick 0 {ROOM}", "4757 4d4d 0 5 6 7 8", "ok -", None),
            (f"tick 0 {ROOM - 1}", "4757 4d4d 0 5 6 7 8", "refusal 6", None)):
        same(model.answer(f"{request} {record}{AT_REST}"), f"{wanted} {left or record}{AT_REST}")
    same(model.answer(f"step 0 {ROOM - 1} - 4757 4d4d 0 5 6 7 8{AT_REST}{LENT}"),
         f"refusal 10 4757 4d4d 0 5 6 7 8{AT_REST}")


def test_unreadable_lines():
    for line in (
            "", " ", "read", "read ", " read -", "read  -", "read - -", "Read -", "read 3", "read 0A", "read 0g",
            "read --", "read -\r", "read 30 ", "read \u0661", "read -\0", "fixt", "fixt fixt read -", "fix42 read -",
            "verdict", "fields", "new 41", "new 41 42 43", "stream -  -", "stream - 3",
            "tick 0 1048577 47 4d 0 5 6 7 8" + AT_REST,
            "reconnect 4757 4d4d 0 5 6 7" + AT_REST, "reconnect 4757 4d4d 0 5 6 7 8 9" + AT_REST,
            *(f"reconnect 4757 4d4d {words}{AT_REST}" for words in (
                "00 5 6 7 8", "0 05 6 7 8", "0 5 6 7 18446744073709551616", "0 5 6 7 -1", "0 5 6 7 -")),
            "write 512", "write 512 A", "write x 30", "write 512 30 34=n1 34=n1", "write 512 30 34=b31",
            "write 512 30 49=n1", "write 512 30 34", "write 512 30 34=", "write 512 30 34=x1", "write 512 30 34=n",
            "write 512 30 49=b", "write 512 30 034=n1", "write 512 30 =n1", "write 512 30 9999=c1"):
        same(model.answer(line), "error")
