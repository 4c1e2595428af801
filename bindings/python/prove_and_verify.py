"""Proves a test load, verifies it, breaks it, and tells each answer, over the shared library alone.

    python3 prove_and_verify.py [LIBRARY]

LIBRARY is the shared library's path, or its name where the loader finds it (liblabrador.so.0 by default). The structs
and calls are those of labrador.h; `labrador explain NUMBER` says what an answer's number means.
"""

import ctypes
import sys
from ctypes import POINTER, c_size_t, c_uint32, c_uint64

SLICE = [POINTER(c_uint32), c_size_t]


class Parameters(ctypes.Structure):
    """labrador_parameters"""

    _fields_ = [(name, c_uint32) for name in "n r kappa kappa_1 kappa_2 K l log_q b t_1 t_2 L".split()]


class Answer(ctypes.Structure):
    """labrador_answer"""

    _fields_ = [("number", c_uint32), ("place", c_uint64)]


class Need(ctypes.Structure):
    """labrador_need"""

    _fields_ = Answer._fields_ + [("words", c_uint64)]


class LoadNeed(ctypes.Structure):
    """labrador_load_need"""

    _fields_ = Answer._fields_ + [(name, c_uint64) for name in ("job", "witness", "randomness")]


class Verdict(ctypes.Structure):
    """labrador_verdict"""

    _fields_ = [("number", c_uint32), ("index", c_uint32)] + [
        (name, c_uint64) for name in "first_hi first_lo second_hi second_lo place cells_left".split()
    ]

    def __str__(self):
        if self.number == 0:
            return f"accepted, {self.cells_left} cells with something left"
        if 21 <= self.number <= 29:
            return f"check {self.number} failed"
        return f"refusal {self.number} at word {self.place}"


CALLS = {
    "labrador_load_needs": (LoadNeed, [Parameters]),
    "labrador_load": (Answer, [Parameters, c_uint32] + 3 * SLICE),
    "labrador_scratch_need": (Need, SLICE),
    "labrador_output_need": (Need, SLICE),
    "labrador_prove": (Answer, 5 * SLICE),
    "labrador_verify": (Verdict, 4 * SLICE),
}


def opened(path):
    """The library, each call with its types."""
    try:
        library = ctypes.CDLL(path)
    except OSError as error:
        sys.exit(f"no library: {error}")
    for name, (answer, operands) in CALLS.items():
        call = getattr(library, name)
        call.restype, call.argtypes = answer, operands
    return library


def words(length):
    """A slice of zeros."""
    return (c_uint32 * length)()


def lent(*slices):
    """The operands of slices: each one's words, then their number."""
    return [operand for part in slices for operand in (part, len(part))]


def fine(answer):
    """An answer that refuses nothing."""
    if answer.number != 0:
        sys.exit(f"refusal {answer.number} at {answer.place}")
    return answer


def main():
    library = opened(sys.argv[1] if len(sys.argv) > 1 else "liblabrador.so.0")
    parameters = Parameters(n=8, r=2, kappa=4, kappa_1=4, kappa_2=4, K=2, l=2, log_q=32, b=256, t_1=4, t_2=4, L=4)
    need = fine(library.labrador_load_needs(parameters))
    job, witness, randomness = words(need.job), words(need.witness), words(need.randomness)
    fine(library.labrador_load(parameters, 2026, *lent(job, witness, randomness)))

    scratch = words(fine(library.labrador_scratch_need(*lent(job))).words)
    transcript = words(fine(library.labrador_output_need(*lent(job))).words)
    fine(library.labrador_prove(*lent(job, randomness, witness, scratch, transcript)))
    print(f"a job of {len(job)} words, a transcript of {len(transcript)}")

    def verdict():
        return library.labrador_verify(*lent(job, randomness, transcript, scratch))

    print(f"as it was made: {verdict()}")
    transcript[1] ^= 1
    print(f"a word of u1 changed: {verdict()}")
    transcript[1] = 2**32 - 1
    print(f"a word that is not below Q: {verdict()}")


if __name__ == "__main__":
    main()
