#!/usr/bin/env python3
"""largest.py project|canonical|starts|WORD

A project at every limit at once: 1,000 activities of 1,000,000 periods that need all 1,000,000 units of 32
resources, 100,000 arcs of weight 1,000,000, and blanks up to 16,777,216 bytes. Each activity i has an arc to each of
the 100 after it, or to the end, so that one can start only when the one before has ended: activity i starts at
1,000,000 (i - 1) and the end at 1,000,000,000, and no other schedule is shorter.

`project` prints its text, `canonical` its canonical text, `starts` the starts, another word that word, the makespan and
the starts."""
import sys

N, K, SUCCESSORS, MOST, BYTES = 1_000, 32, 100, 1_000_000, 16_777_216


def rows_of_words() -> list[str]:
    rows = [f"{N} {K} 0 0", "0 1 0"]
    for i in range(1, N + 1):
        after = [min(i + 1 + k, N + 1) for k in range(SUCCESSORS)]
        rows.append(" ".join(map(str, [i, 1, SUCCESSORS, *after, *(f"[{MOST}]" for _ in after)])))
    rows.append(f"{N + 1} 1 0")
    idle, busy = " 0" * K, f" {MOST}" * K
    rows.append(f"0 1 0{idle}")
    rows += [f"{i} 1 {MOST}{busy}" for i in range(1, N + 1)]
    rows.append(f"{N + 1} 1 0{idle}")
    rows.append(" ".join([str(MOST)] * K))
    return rows


def project() -> str:
    text = "\n".join(rows_of_words())
    return text + "\n" * (BYTES - len(text))


def canonical() -> str:
    return "".join(row.replace(" ", "\t") + "\n" for row in rows_of_words())


def starts() -> str:
    return "".join(f"{i} {max(i - 1, 0) * MOST}\n" for i in range(N + 2))


TEXTS = {"project": project, "canonical": canonical, "starts": starts}

if __name__ == "__main__":
    word = sys.argv[1]
    sys.stdout.write(TEXTS[word]() if word in TEXTS else f"{word} {N * MOST}\n{starts()}")
