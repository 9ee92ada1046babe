#!/usr/bin/env python3
"""Writes the sample tables beside this script: depot.table and four.table. docs/FORMAT.md describes the bytes."""
import pathlib

HERE = pathlib.Path(__file__).parent
QUEUE, HANDLING = 1, 2
ORDINARY, EXPRESS, CHILLED = 0, 1, 2
BULKY, FERRY = 9, 200                     # classes that carry a number and have no name


def file_of(kind, widths, rules):
    """The bytes of a table; a rule is a list of (low, high), one for each field, and the bytes of its decision."""
    d, n = len(widths), len(rules)
    out = bytes([1, d, kind, 0]) + n.to_bytes(2, "big") + bytes(2)
    out += (16 + d).to_bytes(4, "big") + (16 + d + 8 * d * n).to_bytes(4, "big") + bytes(widths)
    for intervals, _ in rules:
        for low, high in intervals:
            out += low.to_bytes(4, "big") + high.to_bytes(4, "big")
    return out + b"".join(decision for _, decision in rules)


def handling(queue, service, keep, note):
    """The six bytes of a handling: queue, class, keep time in minutes, note number."""
    return bytes([queue, service]) + keep.to_bytes(2, "big") + note.to_bytes(2, "big")


# Four fields: postcode (17 bits), weight in grams (16 bits), service class (3 bits), size class (4 bits).
# The table needs 251 branches and 342 marks. A sweep strikes rules 9, 8, 3 and 1.
WIDTHS = [17, 16, 3, 4]
ALL_POSTCODES, CITY, HARBOUR, NORTH = (0, 99999), (20000, 22999), (20400, 20499), (23000, 25999)
COAST, ISLANDS = (23500, 23999), (25800, 25999)
ALL_WEIGHTS, BY_HAND, BY_LIFT = (0, 65535), (0, 31500), (31501, 65535)
ANY_SERVICE, ANY_SIZE = (0, 7), (0, 15)
DEPOT = [
    # 1  Chilled parcels for the city that fit a cold box. Idle: rule 11 says the same wherever this one decides; only
    #    the keep time and the note differ, and these are not compared.
    ([CITY, (0, 20000), (2, 2), (0, 8)], handling(3, CHILLED, 120, 1)),
    # 2  Express for the city, of any size. Needed although rule 12 sends express the same way: rule 4 comes between.
    ([CITY, BY_HAND, (1, 1), ANY_SIZE], handling(2, EXPRESS, 60, 2)),
    # 3  Light express for the harbour. Idle: rule 2 takes all of it first.
    ([HARBOUR, (0, 5000), (1, 1), (0, 11)], handling(2, EXPRESS, 45, 3)),
    # 4  Bulky parcels for the city go to the side gate, in a class that has a number and no name.
    ([CITY, ALL_WEIGHTS, ANY_SERVICE, (12, 15)], handling(9, BULKY, 720, 4)),
    # 5  Too heavy to carry, for anywhere: the side gate too.
    ([ALL_POSTCODES, BY_LIFT, ANY_SERVICE, ANY_SIZE], handling(9, BULKY, 720, 5)),
    # 6  The islands wait for the ferry, in another class without a name.
    ([ISLANDS, ALL_WEIGHTS, ANY_SERVICE, ANY_SIZE], handling(14, FERRY, 2880, 6)),
    # 7  Ordinary parcels for the city.
    ([CITY, BY_HAND, (0, 0), ANY_SIZE], handling(4, ORDINARY, 480, 7)),
    # 8  Ordinary parcels for the harbour, once a round of its own. Idle: rules 4, 5 and 7 take all of it first.
    ([HARBOUR, ALL_WEIGHTS, (0, 0), ANY_SIZE], handling(7, ORDINARY, 480, 8)),
    # 9  Ordinary parcels for the coast. Idle: rule 10 says the same wherever this one decides.
    ([COAST, BY_HAND, (0, 0), ANY_SIZE], handling(5, ORDINARY, 360, 9)),
    # 10 Ordinary parcels for the north.
    ([NORTH, BY_HAND, (0, 0), ANY_SIZE], handling(5, ORDINARY, 480, 10)),
    # 11 Chilled parcels for anywhere.
    ([ALL_POSTCODES, ALL_WEIGHTS, (2, 2), ANY_SIZE], handling(3, CHILLED, 240, 11)),
    # 12 Express for anywhere.
    ([ALL_POSTCODES, ALL_WEIGHTS, (1, 1), ANY_SIZE], handling(2, EXPRESS, 90, 12)),
    # 13 Whatever else has a postcode. Numbers from 100,000 are none, and match no rule.
    ([ALL_POSTCODES, ALL_WEIGHTS, ANY_SERVICE, ANY_SIZE], handling(6, ORDINARY, 1440, 13)),
]

# Four rules of one field of 8 bits, to queues 5 and 7. Rules 3 and 2 are struck by a sweep, in this order: rule 3 never
# decides, and without it rule 4 says the same as rule 2 wherever rule 2 decides.
FOUR = [([(10, 60)], bytes([5])), ([(40, 90)], bytes([7])), ([(30, 70)], bytes([5])), ([(61, 120)], bytes([7]))]

if __name__ == "__main__":
    (HERE / "depot.table").write_bytes(file_of(HANDLING, WIDTHS, DEPOT))
    (HERE / "four.table").write_bytes(file_of(QUEUE, [8], FOUR))
