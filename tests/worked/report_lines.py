"""The driver's request lines of Q-1 and their answers: landed, report, report-values; and lines that cannot be read."""
import model

from .basics import AT, AT_REST, LENT, body, raw, same
from .reporting import FULL_FRAME, SHORTEST_FRAME

RECORD = "4757 4d4d 1 5 3 30 7" + AT_REST
AFTER = f"4757 4d4d 1 5 4 30 {AT}" + AT_REST
ON = RECORD + LENT              # the record that a report is asked on, and the store that it is lent
TIME = b"20240102-09:29:59".hex()
SHORTEST = f"571=b5431 828=b30 60=b{TIME} 32=d100.0 31=d1250.2 574=b34 48=b313333323135 22=b38 54=b31"
FULL = (f"571=b5431 828=b3939 60=b{TIME}2e313233343536 32=d5.2 31=d0.0 64=b3230323430313034 574=b3232 48=b313333323135"
        " 22=b38 54=b32 1427=b4445534b party=414c504841,44,31 party=42,44,3736")


def test_landed():
    same(model.answer("landed"), " ".join(["landed", *map(str, model.LANDED)]))
    same(model.answer("fixt landed"), model.answer("landed"))
    for line in "landed ", "landed 1", "landed -", "Landed":
        same(model.answer(line), "error")


def told(frame):
    """The answer to a report that went out; it stands in the store's first place."""
    return f"ok {frame.hex()} {AFTER}" + (f"{LENT},0={frame.hex()}" if LENT else "")


def test_report():
    same(model.answer(f"report {AT} 512 {ON} {SHORTEST}"), told(SHORTEST_FRAME))
    same(model.answer(f"fixt report {AT} 157 {ON} {SHORTEST}"), told(SHORTEST_FRAME))
    same(model.answer(f"report {AT} 512 {ON} {FULL}"), told(FULL_FRAME))
    backwards = " ".join(reversed(SHORTEST.split(" ")))
    same(model.answer(f"report {AT} 512 {ON} {backwards}"), told(SHORTEST_FRAME))
    for line, refusal in (
            (f"report {AT} 156 {ON} {SHORTEST}", 9), (f"report {AT} 512 {ON}", 8),
            (f"report {AT} 512 {ON} {SHORTEST} 9999=b31 9999=d1.0 453=b31", 8),
            (f"report {AT} 512 {ON} {SHORTEST} 64=b-", 8),
            (f"report {AT} 512 {ON} {SHORTEST}" + " party=41,44,31" * 9, 8),
            (f"report {AT} 512 {ON} {SHORTEST} party=-,44,31", 8),
            (f"report {AT} 512 {ON} {SHORTEST.replace('d100.0', 'd18446744073709551615.18446744073709551615')}", 8)):
        same(model.answer(line), f"refusal {refusal} {RECORD}")
    for before, refusal, left in (("4757 4d4d 0 5 3 30 7", 2, None), (f"{'41' * 12} 4d4d 1 5 3 30 7", 11, None),
                                  ("4757 4d4d 1 5 999999991 30 7", 5, "4757 4d4d 2 5 999999991 30 7")):
        same(model.answer(f"report {AT} 0 {before}{AT_REST}{LENT}"), f"refusal {refusal} {left or before}{AT_REST}")


def test_report_values():
    def read(text):
        return model.answer(f"report-values {text.hex() or '-'}")
    start, end = model.good_frame(FULL_FRAME)
    same(read(FULL_FRAME[start:end - 7]), f"values {FULL}")
    start, end = model.good_frame(SHORTEST_FRAME)
    same(read(SHORTEST_FRAME[start:end - 7]), f"values {SHORTEST}")
    for msg_type in "0", "1", "A", "F", "AD":
        same(read(body(msg_type)), "finding 11 35")                 # clean, but of another type
    same(read(body("ZZ", "")), "finding 11 35")
    same(read(body("0", "x|")), "finding 0 0")
    same(read(body("F", "")), "finding 1 11")
    same(read(body("AE", "")), "finding 1 571")
    same(read(body("AE", "552=1|54=1|453=1|448=P|")), "finding 1 447")
    for none in b"", raw("35=|"), raw("36=0|"), raw("35=AE"), raw("35=" + "x" * 2045 + "|"):
        same(read(none), "refusal 10")


def test_unreadable_lines():
    front = f"report {AT} 512 {ON}"
    for word in ("571", "571=", "571=x", "571=b", "571=b4", "571=bA1", "571=n1", "571=d1.0", "0571=b41", "=b41", "31=b31",
                 "31=d", "31=d1", "31=d1.", "31=d.1", "31=d01.0", "31=d1.00", "31=d-1.0", "31=d1.0.0", "31=n1", "31=D1.0",
                 "31=d18446744073709551616.0", "32=d0.18446744073709551616", "9999=n1", "9999=x", "9999=d1", "party",
                 "party=", "party=41", "party=41,44", "party=41,44,31,", "party=41,44,31,32", "party=,44,31", "party=41,,31",
                 "party=b41,44,31", "Party=41,44,31", "party=41,44,3", "571=b41 571=b41", "31=d1.0 31=d1.0", "", " ",
                 "18446744073709551616=b-"):
        same(model.answer(f"{front} {word}"), "error")
    for line in ("report", f"report {AT} 512", f"report {AT} 1048577 {ON}",
                 f"report {AT} 512 4757 4d4d 1 5 3 30{AT_REST}{LENT}",
                 f"report x 512 {ON}", f"report {AT} 512 {ON} ", "report-values", "report-values - -",
                 "report-values 3", "report_values -", "fix42 report-values -"):
        same(model.answer(line), "error")
