#!/usr/bin/env python3
"""Writes four sweeps of 64 samples as a WAV file: `python3 examples/sweeps.py examples/sweeps.wav`.

They are four sweeps of faults.sheet, each sample moved a little, as if recorded anew. The file itself is written by `wave`, the module that
comes with Python: nothing of this repository puts a byte of its header.
"""
import os
import struct
import sys
import wave

N = 64
RATE = 2000
# belt tensioner seized, dry rail right, encoder wheel slipping, bearing pitted
TRACES = [7, 19, 25, 1]


def stored(sheet):
    """The samples of a sheet: in every block but the first, from byte 4 to byte 509, two bytes each."""
    blocks = [sheet[at:at + 512] for at in range(512, len(sheet), 512)]
    data = b"".join(block[4:510] for block in blocks)
    return struct.unpack("<%dh" % (len(data) // 2), data)


def main():
    here = os.path.dirname(os.path.abspath(__file__))
    with open(os.path.join(here, "faults.sheet"), "rb") as file:
        samples = stored(file.read())
    sweeps = [samples[N * trace + i] + (7 * i + trace) % 41 - 20 for trace in TRACES for i in range(N)]
    with wave.open(sys.argv[1], "wb") as file:
        file.setnchannels(1)
        file.setsampwidth(2)
        file.setframerate(RATE)
        file.writeframes(struct.pack("<%dh" % len(sweeps), *sweeps))


main()
