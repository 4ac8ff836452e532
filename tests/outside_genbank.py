"""What Biopython reads in a GenBank file, and what it writes.

Usage: outside_genbank.py read FILE     prints the letters of each record, a line each
       outside_genbank.py write <LINES  writes each line of letters as a record
Every warning is an error.
"""
import sys
import warnings

from Bio import SeqIO
from Bio.Seq import Seq
from Bio.SeqRecord import SeqRecord

warnings.simplefilter("error")


def read(path):
    for record in SeqIO.parse(path, "genbank"):
        print(record.seq)


def write(lines):
    for line in lines:
        letters = Seq(line.rstrip("\n"))
        record = SeqRecord(letters, id="made", name="made", description="", annotations={"molecule_type": "DNA"})
        SeqIO.write(record, sys.stdout, "genbank")


try:
    if sys.argv[1] == "read":
        read(sys.argv[2])
    else:
        write(sys.stdin)
except Exception as complaint:
    sys.exit(f"{type(complaint).__name__}: {complaint}")
