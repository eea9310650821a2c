"""Q-2: the sum at body lengths that are a multiple of eight and at those that are not."""
from .basics import is_good, raw, same

# the body lengths 5 to 20, `35=0|`, then letters from a on, then `|`; added up by hand from 241, W1's
SUMS = (241, 243, 85, 184, 28, 168, 14, 117, 221, 70, 176, 27, 135, 244, 98, 200)


def test_short_bodies():
    for length, total in zip(range(5, 21), SUMS):
        body = "35=0|" + "abcdefghijklmn"[:length - 6] * (length > 6) + "|" * (length > 5)
        front = f"8=FIXT.1.1|9={length}|{body}"
        for said in range(256):
            same(is_good(raw(f"{front}10={said:03}|")), said == total)


def test_long_bodies():
    """Beside the body of 6, whose sum is 243, there are other digits of the length, and as many `x`, each 120, as it is longer."""
    for length in range(2040, 2049):
        front = f"8=FIXT.1.1|9={length}|35=0|{'x' * (length - 6)}|"
        digits = sum(map(ord, str(length))) - ord("6")
        total = (243 + digits + 120 * (length - 6)) % 256
        for said in range(256):
            same(is_good(raw(f"{front}10={said:03}|")), said == total)
