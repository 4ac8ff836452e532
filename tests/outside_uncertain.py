"""What the codes of uncertain bases stand for, and the two lengths of short texts, by Biopython's table of ambiguous bases.

Usage: outside_uncertain.py LIBRARY.so

The library tells no set. That base b is one of code x it says by the text xb: some choice makes it a mirror repeat, so the first
length is 2. That a code is one base it says by the text xx, which is then a mirror repeat for every choice.
"""
import ctypes
import itertools
import sys

import Bio
from Bio.Data.IUPACData import ambiguous_dna_values

call = ctypes.CDLL(sys.argv[1]).mirror_uncertain
call.argtypes = [ctypes.c_char_p, ctypes.c_size_t]
call.restype = ctypes.c_uint64
results = []


def tell(so, what):
    print(f"  {what}" if so else f"  {what}: NOT SO")
    results.append(so)


def ask(text):
    """The refusal number and the two lengths; nothing else may be in an answer."""
    answer = call(text, len(text))
    if answer & 0xFFFFFF00:
        sys.exit(f"{text}: a flag or a row in {answer:x}")
    return answer & 0xFF, answer >> 32 & 0xFFFF, answer >> 48


def bases_by_the_call(byte):
    """The bases that a byte meets, before them and behind them; None where it is refused with 4."""
    x = bytes([byte])
    if ask(x)[0]:
        return None if ask(x)[0] == 4 else "another refusal"
    before = {b for b in "ACGT" if ask(x + b.encode())[1] == 2}
    behind = {b for b in "ACGT" if ask(b.encode() + x)[1] == 2}
    return before if before == behind else "other bases behind it"


def bases_by_biopython(byte):
    values = ambiguous_dna_values.get(chr(byte).upper()) if byte < 128 else None
    return None if values is None else set(values)


def lengths_by_every_choice(text):
    """The longest stretch that some choice, and that every choice, makes equal to its reversal."""
    stretches = [(start, end) for start in range(len(text)) for end in range(start + 1, len(text) + 1)]
    choices = ["".join(choice) for choice in itertools.product(*(ambiguous_dna_values[code] for code in text))]
    mirrored = {(start, end): [w[start:end] == w[start:end][::-1] for w in choices] for start, end in stretches}
    return tuple(max((end - start for (start, end), of in mirrored.items() if serves(of)), default=0) for serves in (any, all))


print(f"Biopython {Bio.__version__}, Bio.Data.IUPACData.ambiguous_dna_values")
ours = {byte: bases_by_the_call(byte) for byte in range(256)}
theirs = {byte: bases_by_biopython(byte) for byte in range(256)}
codes = [byte for byte in range(256) if theirs[byte] is not None and chr(byte) not in "Xx"]
tell(len(codes) == 30 and all(ours[byte] == theirs[byte] for byte in codes), "15 codes in either case: the same bases")
tell(all((ask(bytes([byte, byte]))[2] == 2) == (len(theirs[byte]) == 1) for byte in codes), "of these A, C, G and T alone are certain")
tell(all(theirs[byte] == set("ACGT") and ours[byte] is None for byte in b"Xx"), "X and x: any base there, refused with 4 here, for 02 (xii) has no X")
others = [byte for byte in range(256) if theirs[byte] is None]
tell(all(ours[byte] is None for byte in others), f"the other {len(others)} bytes, U and u among them: no code there, refused with 4 here")
capitals = sorted(set(ambiguous_dna_values) - {"X"})
texts = ["".join(text) for n in range(4) for text in itertools.product(capitals, repeat=n)]
tell(all(ask(text.encode()) == (0, *lengths_by_every_choice(text)) for text in texts), f"{len(texts)} texts of up to 3 codes: both lengths by every choice")
print(f"{sum(results)} passed, {len(results) - sum(results)} failed")
sys.exit(not all(results))
