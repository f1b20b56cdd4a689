"""Prints as many different words as the argument says, each of 32 bytes and all with one hash under the library's FoldHasher,
whose seed is fixed.

The hasher starts with a state, adds the length, and folds 16 bytes after 16 into it: the first eight, joined by xor with the
state, times the last eight, joined by xor with a multiplier, and then the two halves of the product joined by xor. So where the
first eight bytes of the second block are the state behind the first block, the product is 0, whatever the last eight are: these
tell the words apart. A first block is looked for behind which the state is spelled by bytes that a word may have."""

import itertools
import random
import sys

MULTIPLIER = 0x9E3779B97F4A7C15
STATE = 0x243F6A8885A308D3
LENGTH = 32
LETTERS = "abcdefghijklmnopqrstuvwxyz"


def number(text):
    return int.from_bytes(text, "little")


def folded(state, block):
    product = (number(block[:8]) ^ state) * (number(block[8:]) ^ MULTIPLIER)
    return product % 2**64 ^ product >> 64


def hash_of(word):
    state = (STATE + len(word)) % 2**64
    for start in range(0, len(word), 16):
        state = folded(state, word[start:start + 16])
    return state


def may_stand(byte):
    return 33 <= byte <= 126 and chr(byte) not in '();"' and not chr(byte).isupper()


def beginning():
    chance = random.Random(2026)
    while True:
        block = "".join(chance.choices(LETTERS, k=16)).encode()
        state = folded(STATE + LENGTH, block).to_bytes(8, "little")
        if all(may_stand(byte) for byte in state):
            return block + state


def main():
    start = beginning()
    ends = itertools.product(LETTERS, repeat=8)
    for end in itertools.islice(ends, int(sys.argv[1])):
        word = start + "".join(end).encode()
        assert hash_of(word) == 0
        print(word.decode())


main()
