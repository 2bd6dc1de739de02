"""The mark `early` (paper 02, No. 8) in the calls that were made from paper 01 alone, where a reading had none.

By the call's place in its file: these marks are 1 by the paper's sentence, as the second monitor says them, and the
others are 0. Beside each the first of the unit that it came too early for; nothing alters in any of them.
"""

EARLY = {
    210,  # a choice from 4,294,967,335 on, beyond every reading, and its last before its first
    434,  # a choice from 4,294,967,296 on
    600,  # an obligation from 2,330,514,300 on; the reading is of 2,330,514,113
}


def mark(place): return int(place in EARLY)
