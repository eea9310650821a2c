"""The writer call: refusals 8 and 9, and the order of 123 and 36."""
import model

from .basics import NOW, bodies, same


def test_the_writer():
    values = {49: b"GW", 56: b"MM", 34: 2, 52: NOW.encode()}

    def refusal(msg_type, room=4096, **changes):
        changed = dict(values)
        for name, value in changes.items():
            changed[int(name[1:])] = value
        return model.write(room, msg_type, {tag: value for tag, value in changed.items() if value is not None})[0]
    same(refusal(b"0"), None)
    for other in b"AD", b"F", b"", b"6", b"00", b"\x00":
        same(refusal(other), 8)
    for name in "t49", "t56", "t34", "t52":
        same(refusal(b"0", **{name: None}), 8)                                  # absent
    same(refusal(b"0", t112=b""), 8)                                            # empty isn't absent
    same(refusal(b"0", t112=b"x\x01"), 8)
    same(refusal(b"0", t112=b"x" * 64), None)
    same(refusal(b"0", t112=b"x" * 65), 8)
    same(refusal(b"0", t34=0), 8)
    same(refusal(b"0", t34=10**9), 8)
    same(refusal(b"0", t97=b"N"), 8)
    same(refusal(b"0", t1128=b"9"), 8)
    same(refusal(b"0", t35=b"0"), 8)
    same(refusal(b"0", t58=b"x"), 8)
    same(refusal(b"1"), 8)
    same(refusal(b"3", t45=1, t371=0, t373=0), None)
    same(b"371=0\x01" in model.write(4096, b"3", {**values, 45: 1, 371: 0})[1], True)
    same(refusal(b"A", t98=b"0", t108=30, t1137=b"9", t141=b"X"), 8)
    same(refusal(b"A", 10, t98=b"0", t108=61, t1137=b"9"), 8)                   # 8 before 9
    same(refusal(b"A", 10, t98=b"0", t108=60, t1137=b"9"), 9)
    written = model.write(4096, b"4", {**values, 43: b"Y", 122: NOW.encode(), 36: 9, 123: b"Y"})[1]
    same(bodies(written), ["35=4|34=2|43=Y|122=NOW|123=Y|36=9|"])
