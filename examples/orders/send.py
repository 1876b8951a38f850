#!/usr/bin/env python3
"""Writes the file of the orders' job: five orders with nested items, in the layout of a big endian machine with
pointers of 4 bytes. The folder to write to may be named; else it is this one."""
import os
import sys

HERE = os.path.dirname(os.path.abspath(__file__))
sys.path.insert(0, os.path.join(HERE, "..", "..", "senders", "python"))
import ndr  # noqa: E402  the sender stands in the folder above

ORDER = [("item", [("id", "unsigned integer", 4), ("label", "string"), ("qty", "integer", 2)]),
         ("order", [("customer", "string"), ("n", "unsigned integer", 2), ("items", "item[n]"),
                    ("total", "integer", 8)])]

# Each order: the customer, the items as label and quantity, the total.
ORDERS = [("Ada Lovelace", [("bolt", 12), (None, -1)], 4200000000),
          (None, [], -1),
          ("Zo\xeb", [("", 5)], 250),
          ("Bob", [('nut "M4"', 100)], 5000000000),
          ("Cy", [("a", 1), ("b", 2), ("c", 3)], 7)]


def main(folder: str) -> None:
    with ndr.Writer(os.path.join(folder, "shop.ndr")) as out:
        number = out.add_format(ndr.lay_out("be32", ORDER))
        for customer, items, total in ORDERS:
            listed = [{"id": k, "label": label, "qty": qty} for k, (label, qty) in enumerate(items, 1)]
            out.write(number, {"customer": customer, "n": len(items), "items": listed, "total": total})


if __name__ == "__main__":
    main(sys.argv[1] if len(sys.argv) > 1 else HERE)
