"""Prints the SHA-1 of the payload of the load of a number, by itself, so that no other case waits while it computes.

The payload is 64 MiB of the words of SplitMix64 (Steele, Lea and Flood, 2014) from the seed on, each with its lowest byte first.
"""
import hashlib
import struct
import sys

WORDS, CUT, MASK = 2**23, 2**16, 2**64 - 1


def digest_of(seed):
    digest, state = hashlib.sha1(), seed
    for _ in range(WORDS // CUT):
        words = []
        for _ in range(CUT):
            state = state + 0x9E3779B97F4A7C15 & MASK
            word = (state ^ state >> 30) * 0xBF58476D1CE4E5B9 & MASK
            word = (word ^ word >> 27) * 0x94D049BB133111EB & MASK
            words.append(word ^ word >> 31)
        digest.update(struct.pack(f"<{CUT}Q", *words))
    return digest.hexdigest()


if __name__ == "__main__":
    print(digest_of(int(sys.argv[1])))
