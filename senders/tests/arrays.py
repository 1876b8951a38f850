"""Holds the writing of NumPy's structured arrays to that of their records one by one.

    python3 arrays.py OUT      OUT gets the file
"""
import io
import sys

import numpy
from writing import RECORDS, Row, expect, keep, ndr, written

ROW = numpy.dtype([("index", "u4"), ("cells", "i4", 4)], align=True)


def main(folder: str):
    rows = numpy.array([(0, (1, 2, 3, 4)), (1, (-1, -2, -3, -4))], ROW)
    out = io.BytesIO()
    out.close = lambda: None
    with ndr.Writer(out) as writer:
        writer.write_array(writer.add_format(ndr.format_of_dtype(ROW, "row")), rows)
    expect("rows by NumPy", written(ndr.format_of(Row), RECORDS["row"][1]), out.getvalue())
    keep(folder, "rows", out.getvalue())


if __name__ == "__main__":
    main(sys.argv[1])
    print("ndr.py: arrays ok")
