"""A small chip: a chip database of a 1k that has two pins and a cell, and the image of an inverter between the pins. With one more cell there are
the image of a divider, whose first cell clocks the second, and that of a ring, whose cells clock each other."""

DATABASE = """.device 1k 14 18 6
.logic_tile_bits 54 16
LC_0 %s
.io_tile_bits 18 16
%s.net 0
0 1 io_0/D_IN_0
.net 1
1 1 lutff_0/in_0
.net 2
1 1 lutff_0/out
.net 3
0 2 io_0/D_OUT_0
.buffer 1 1 1 B2[0]
1 0
.buffer 0 2 3 B6[0]
1 2
""" % (" ".join("B%d[%d]" % (row, column) for row in (0, 1) for column in range(36, 46)),
       "".join("IOB_0.PINTYPE_%d B%d[0]\n" % (row, row) for row in range(6)))

# an input pin, a LUT that inverts it, and an output pin: the bits that are set in each tile
TILES = ((".io_tile 0 1", 18, ((0, 0),)), (".io_tile 0 2", 18, ((0, 0), (3, 0), (4, 0), (6, 0))),
         (".logic_tile 1 1", 54, ((0, 37), (0, 39), (0, 40), (0, 42), (1, 36), (1, 38), (1, 41), (1, 43), (2, 0))))

TWO_CELLS = DATABASE.replace(" 6\n", " 8\n", 1) + """.net 4
1 1 lutff_global/clk
.net 5
2 1 lutff_0/in_0
2 1 lutff_0/out
.net 6
2 1 lutff_global/clk
.buffer 1 1 1 B3[0]
1 2
.buffer 1 1 4 B4[0] B5[0]
01 0
10 5
.buffer 2 1 6 B4[0]
1 2
.buffer 0 2 3 B7[0]
1 5
"""

# a flip-flop that takes its own inverse
TURNED = ((0, 37), (0, 39), (0, 40), (0, 42), (0, 45), (1, 36), (1, 38), (1, 41), (1, 43))
PINS = (".io_tile 0 1", 18, ((0, 0),)), (".io_tile 0 2", 18, ((0, 0), (3, 0), (4, 0), (7, 0)))
SECOND = (".logic_tile 2 1", 54, TURNED + ((4, 0),))
DIVIDER = PINS + ((".logic_tile 1 1", 54, TURNED + ((3, 0), (5, 0))), SECOND)
RING = PINS + ((".logic_tile 1 1", 54, TURNED + ((3, 0), (4, 0))), SECOND)


def text_of(tiles):
    """The text of an image with these tiles."""
    lines = [".device 1k"]
    for statement, columns, bits in tiles:
        lines.append(statement)
        lines += ["".join("01"[(row, column) in bits] for column in range(columns)) for row in range(16)]
    return "\n".join(lines) + "\n"
