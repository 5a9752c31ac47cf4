"""Lehmer's generator with the multiplier 16807 modulo 2^31 - 1 (Bratley, Fox and Schrage 1983), as Taillard (1993) uses
it. Whole numbers say all of it, so any program can draw the same."""
import hashlib

MODULUS = 2**31 - 1
MULTIPLIER = 16807


class Lehmer:
    def __init__(self, seed: int) -> None:
        self.seed = seed

    def within(self, least: int, most: int) -> int:
        self.seed = self.seed * MULTIPLIER % MODULUS
        return least + self.seed * (most - least + 1) // MODULUS


def of_words(*words: object) -> Lehmer:
    """The generator whose seed is 1 and the rest of the SHA-256 of the words, one blank apart, by 2^31 - 2."""
    digest = hashlib.sha256(" ".join(map(str, words)).encode()).digest()
    return Lehmer(1 + int.from_bytes(digest) % (MODULUS - 1))
