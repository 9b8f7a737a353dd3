"""Inputs that were changed at random, and how a run that meets them may end: for fuzz.py."""
import subprocess

SECONDS = 60
# Bytes and words that readers stumble over.
ODD = [b"\0", b"\xff", b"\x80", b"\xc3", b"\xef\xbb\xbf", b"\r", b"\n", b"\r\n", b"\t", b" ", b'"',
       b'""', b"'", b"\\", b",", b";", b"/", b"-", b"..", b"[", b"]", b"{", b"}", b"%", b"=", b"&",
       b"\xe2\x80\x93", b"\xc2\xa0", b"\xe2\x88\x92", b"\xc2\xba", b"\x1b[31m", b"\x7f", b"0",
       b"-1", b"00", b"10001", b"999999999", b"9999999999", b"18446744073709551616", b"1e9"]
LONG = [250, 4_096, 65_535, 65_536, 65_537]


def mutated(chance, samples, words=()):
    """A sample with up to six changes; one in twenty as it is."""
    text = bytearray(chance.choice(samples))
    for _ in range(chance.choice([0, 1, 1, 1, 2, 2, 3, 4, 5, 6]) or chance.randrange(2)):
        change(chance, text, samples, words)
    return bytes(text)


def change(chance, text, samples, words):
    """One change of a text, in its place."""
    kind = chance.randrange(9)
    first, last = sorted(chance.randrange(len(text) + 1) for _ in range(2))
    last = min(last, first + chance.choice([1, 1, 2, 8, 40]))
    if kind == 0:
        del text[first:last]
    elif kind == 1:
        text[first:first] = text[first:last]
    elif kind == 2:
        text[first:first] = chance.choice(ODD)
    elif kind == 3:
        text[first:last] = chance.choice(words or ODD)
    elif kind == 4 and text:
        text[first % len(text)] = chance.randrange(256)
    elif kind == 5 and text:
        text[first % len(text)] ^= 1 << chance.randrange(8)
    elif kind == 6:
        other = chance.choice(samples)
        place = chance.randrange(len(other) + 1)
        text[first:last] = other[place:place + chance.choice([4, 16, 64])]
    elif kind == 7 and chance.random() < 0.02:
        text[first:first] = bytes([chance.choice(b'ax0," -')]) * chance.choice(LONG)
    else:
        text[first:first] = chance.choice(words or ODD)


class Run:
    """How a run ended: with the status None if it didn't."""

    def __init__(self, command, stdin=b"", folder=None):
        try:
            done = subprocess.run(command, input=stdin, capture_output=True, timeout=SECONDS,
                                  check=False, cwd=folder)
            self.status, self.out, self.stderr = done.returncode, done.stdout, done.stderr
        except subprocess.TimeoutExpired:
            self.status, self.out, self.stderr = None, b"", b""

    def why_wrong(self):
        """What no run may do: never end, end by a signal, with another status than 0 to 4, or with
        a fault that isn't reported in a line; or report one if there is none."""
        if self.status is None:
            return f"no end within {SECONDS} seconds"
        if not 0 <= self.status <= 4:
            return f"it ended with {self.status}: {self.stderr!r}"
        if self.status == 0:
            return f"it reported {self.stderr!r}" if self.stderr else ""
        if not self.stderr.startswith((b"oldstyle: ", b"error: ")) or self.stderr[-1:] != b"\n":
            return f"with status {self.status} it reported {self.stderr!r}"
        return ""
