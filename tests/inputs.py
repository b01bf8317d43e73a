#!/usr/bin/env python3
"""Writes inputs for the scripts that compare the library with the program: inputs.py FOLDER. Some inputs are made to hurt."""
import os
import sys

TWO = b"(;SZ[3](;B[aa])(;B[bb];W[aa]))"
LETTERS = b"abcdefghijklmnopqrstuvwxyzABCDEFGHIJKLMNOPQRSTUVWXYZ"


def inputs():
    """Pairs of a name and a text."""
    for length in range(len(TWO)):
        yield f"cut{length:02}", TWO[:length]
    yield "two", TWO
    yield "mark", b"\xef\xbb\xbf" + TWO
    yield "mark_inside", TWO + b"\xef\xbb\xbf" + TWO
    yield "zero", b"(;C[\0])"
    yield "high", b"(;C[" + bytes(range(128, 256)) + b"])"
    yield "prose", b"Our game:\n" + TWO
    yield "rest", TWO + b"\nGreetings"
    yield "other_game", b"(;GM[2](;)(;))"
    yield "bad_size", b"(;SZ[53];B[aa])(;SZ[19:13];B[aa])"
    yield "large_board", b"(;SZ[26];B[aa];W[zz])(;SZ[52];B[ZZ])"
    yield "dead_setup", b"(;SZ[3]AB[aa]AW[ab][ba];B[cc])"
    yield "escapes", b"(;GaMe[1]C[a\\]b\\\\][)\\)\n] ;B[aa]C[)\n(;]N[\\]])(;C[:;()\r\n])"
    yield "blank_comment", b"(;SZ[5]C[\n\none\n\ntwo\n];W[]C[\n];B[ee]C[])"
    yield "over", b"(;SZ[3];B[];W[](;B[aa])(;C[x]))"
    yield "repeat", b"(;SZ[2];B[aa];W[ba];B[bb];W[ab];B[aa](;W[ba])(;W[bb]))"
    yield "deep", b"(;" * 20000 + b")" * 20000
    yield "wide", b"(;SZ[9]" + b"(;B[aa])" * 5000 + b")"
    yield "long", b"(;SZ[19]" + b";B[];AE[aa];W[]" * 5000 + b")"
    yield "large_value", b"(;C[" + b"x" * 300000 + b"];B[aa])"
    yield "many_values", b"(;SZ[52]AB" + b"".join(b"[%c%c]" % (a, b) for a in LETTERS for b in LETTERS[:51]) + b";W[aZ])"


def main():
    for name, text in inputs():
        with open(os.path.join(sys.argv[1], name + ".sgf"), "wb") as file:
            file.write(text)


if __name__ == "__main__":
    main()
