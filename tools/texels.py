#!/usr/bin/env python3
"""Writes crates/replay_texels/stdout: a line for each density, in hundredths of a per cent, with its R16Unorm texel.

Document 02, requests 1 and 11: the R16Unorm texel d times 65,535 divided by 10,000, ties to the even texel, and number 40 over 10,000. Each texel
is worked out here in decimals: the density as a part of 1 (exact in four decimals) times 65,535, rounded by Python's decimal module.
Nothing is taken from the crate `texel`, which goes by quotient and remainder. Run it from the root of the repository:

  python3 tools/texels.py           writes the file
  python3 tools/texels.py --check   says whether the file is what would be written
"""
import sys
from decimal import ROUND_HALF_EVEN, Decimal

STORED = 'crates/replay_texels/stdout'
OVER = [10001, 65536, 4294967295]


def texel(density):
    part = Decimal(density).scaleb(-4)
    return (part * 65535).quantize(Decimal(1), rounding=ROUND_HALF_EVEN)


def lines():
    for density in range(10001):
        yield f'{density} {texel(density)}\n'
    for density in OVER:
        yield f'{density} refused 40\n'


if __name__ == '__main__':
    text = ''.join(lines())
    if sys.argv[1:] == ['--check']:
        sys.exit(open(STORED).read() != text)
    open(STORED, 'w').write(text)
