#!/usr/bin/env python3
"""Writes what a logic analyser would have sampled of two transfers: one byte a sample, bit 0 cs_n, bit 1 sck, bit 2 mosi.

    capture.py FILE [LOST]      LOST: the clock pulse, from 0, that the second transfer lacks
"""
import sys

CS_N, SCK, MOSI = 1, 2, 4


def transfer(byte, lost=None):
    """The samples of one transfer, the highest bit first, in mode 0: data stands while the clock rises."""
    samples = [0, 0]
    for pulse in range(8):
        data = MOSI if byte >> (7 - pulse) & 1 else 0
        high = 0 if pulse == lost else SCK
        samples += [data, data, data | high, data | high]
    return samples + [0, 0]


def main():
    lost = int(sys.argv[2]) if len(sys.argv) > 2 else None
    idle = [CS_N] * 6
    samples = idle + transfer(0xA5) + idle + transfer(0x3C, lost) + idle
    with open(sys.argv[1], "wb") as out:
        out.write(bytes(samples))


main()
