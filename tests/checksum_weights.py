#!/usr/bin/env python3
"""What each byte value adds to a line's checksum, by document 01's words: "a digit adding itself and `-` adding 1".

Prints 256 lines, a byte value and what it adds: the stored output of test_checksum.
"""


def weight(byte):
    if byte in b"0123456789":
        return int(bytes([byte]))
    return 1 if byte in b"-" else 0


for byte in range(256):
    print(byte, weight(byte))
