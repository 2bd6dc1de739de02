"""Previews (paper 02, No. 6) of the readings of the calls that were made from paper 01 alone.

A preview "answers as the reading itself would on a copy, refusals included"; its second table becomes the one that the
reading leaves, and "on a refusal the second table is untouched. A second table of wrong length counts under 6."
"""
from ahead import NONE
from records import ZEROS, altered, breached

# lent in turns: zeros, a damaged one, a breached one, one of wrong length
SECONDS = ZEROS, altered(3079, -1, altered(0, 7, ZEROS)), breached(160, 1), altered(3078, -1, ZEROS[:3079])


def previewed(place, data, table, reading, number, left, early, cost, ahead):
    """The preview of a reading's call, from the call's place in its file."""
    second = SECONDS[place % len(SECONDS)]
    if len(second) != len(ZEROS) and number not in range(1, 6):
        number, early, cost, ahead = 6, 0, 0, NONE
    return "preview", data, (table, second), reading, number, second if number else left, early, cost, ahead
