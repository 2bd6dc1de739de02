"""What rounding down (paper 02, No. 5) alters in the answers of the calls that were made from paper 01 alone.

By the call's place in its file: the cells that hold another value in the table afterwards, or the forecast. Beside it
the quotient that is another now; towards zero each of these was one more.
"""

ALTERED = {
    113: (145, 5),  # 1 ÷ −7 is −1: the forecast was 185
    115: (145, 5),  # the same
    147: {41: 8},  # 1 ÷ −1,000,000,000 is −1: an argument is 8, and was 9
    217: {18: -1},  # −70 ÷ 1,000,000,000 is −1, an argument
    # −511 ÷ 2 is −256: another clause waits
    276: {4: 1, 8: 18, 9: 5280, 10: 100} | {cell: 0 for cell in (32, 33, 34, 56, 57, 58)},
    343: {20: -2},  # 1 ÷ −10 is −1: an argument is −2, and was −1
    349: {65: 2},  # 3 ÷ −7 is −1: an argument is 2, and was 0
    373: {281: -1},  # 7 ÷ −1,000,000,000 is −1, an argument
    517: {232: -4},  # 2 ÷ −10, −1 ÷ 5, −3 ÷ 10 are −1: an argument is −4, and was −3
}


def rounded(place, answer):
    """A call's answer, from its place and its answer by paper 01."""
    other = ALTERED.get(place)
    if isinstance(other, dict):
        return [other.get(cell, value) for cell, value in enumerate(answer)]
    return other or answer
