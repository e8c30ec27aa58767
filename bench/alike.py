"""Texts that the kit's hasher hashes alike. Its seed is fixed, and a word that equals its state takes whatever was hashed before, and
the word beside it, to nothing."""
WORD = (1 << 64) - 1
MULTIPLIER = 0x9E3779B97F4A7C15
SEED = 0x243F6A8885A308D3


def word(data):
    return int.from_bytes(data, "little")


def folded(one, other):
    product = one * other
    return product & WORD ^ product >> 64


def behind(state, number):
    """The state behind a number of eight bytes."""
    return folded(state ^ number & WORD, MULTIPLIER ^ 16)


def block(state, data):
    """The state behind the first 16 bytes of a longer text."""
    return folded(state ^ word(data[:8]), word(data[8:]) ^ MULTIPLIER)


def is_plain(data):
    return all(0x20 <= it < 0x7F and it not in b'"\\' for it in data)


def time_and_begin(since):
    """The first time since one, in milliseconds, and the eight letters such that at this time all rows hash alike whose one text is
    these letters and eight others."""
    while True:
        state = behind(behind(SEED, since), 1) + 16 & WORD
        begin = state.to_bytes(8, "little")
        if is_plain(begin):
            return since, begin.decode()
        since += 1


def begin_of_texts():
    """24 letters such that all texts hash alike that are these and eight others."""
    number = 0
    while True:
        first = f"{number:016d}"
        begin = block(SEED + 32 & WORD, first.encode()).to_bytes(8, "little")
        if is_plain(begin):
            return first + begin.decode()
        number += 1
