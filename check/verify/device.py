"""What the tests change in a routed text: the bits of functions, cells and links, by the chip database."""
import re

# the bits of a cell that are entries 0 to 15 of its table, and the others
ENTRIES = 4, 14, 15, 5, 6, 16, 17, 7, 3, 13, 12, 2, 1, 11, 10, 0
CARRY, SETS, AT_ONCE = 8, 18, 19


class Database:
    """functions: of each kind of tile, of each function, its bits as pairs of a row and a column. columns: of each tile, the one that has its
    column buffers. enables: of each pin, the place whose bits IE and REN are its own. links: of each net that links lead to, the tile, the bits,
    and of each of the values its source. nets: the number of each name in a tile. Without has_nets the last two are left out."""

    def __init__(self, path, has_nets=True):
        self.functions, self.links, self.nets, self.columns, self.enables = {}, {}, {}, {}, {}
        statement, words = "", []
        with open(path) as lines:
            for line in lines:
                if line.startswith("."):
                    words = line.split()
                    statement = words[0]
                    if statement == ".net" and not has_nets:
                        break
                    if statement in (".buffer", ".routing"):
                        link = ((int(words[1]), int(words[2])), bits_of(words[4:]), {})
                        self.links.setdefault(int(words[3]), []).append(link)
                elif line.strip():
                    self.take(statement, words, line.split(), line)

    def take(self, statement, words, entry, line):
        """Takes a line below a statement."""
        if statement == ".colbuf":
            self.columns[int(entry[2]), int(entry[3])] = int(entry[0]), int(entry[1])
        elif statement == ".ieren":
            place = tuple(int(word) for word in entry)
            self.enables[place[:3]] = place[3:]
        elif statement == ".net":
            self.nets[(int(entry[0]), int(entry[1]), entry[2])] = int(words[1])
        elif statement in (".buffer", ".routing"):
            self.links[int(words[3])][-1][2][entry[0]] = int(entry[1])
        elif statement.endswith("_tile_bits"):
            self.functions.setdefault(statement[1:-5], {})[entry[0]] = bits_of(entry[1:])


def bits_of(words):
    """The rows and columns of bits like B7[12]."""
    return [tuple(int(part) for part in re.fullmatch(r"B(\d+)\[(\d+)\]", word).groups()) for word in words]


class Text:
    """A routed text whose bits can be changed."""

    def __init__(self, text, database):
        self.lines = text.splitlines()
        self.database = database
        self.tiles, self.rams, self.names = {}, {}, {}
        for index, line in enumerate(self.lines):
            words = line.split(None, 2)
            if line.startswith(".ram_data "):
                self.rams[int(words[1]), int(words[2])] = index
            elif re.match(r"\.\w+_tile ", line):
                self.tiles[int(words[1]), int(words[2])] = index, words[0][1:]
            elif line.startswith(".sym "):
                self.names.setdefault(int(words[1]), words[2])

    def copy(self):
        return Text("\n".join(self.lines) + "\n", self.database)

    def text(self):
        return "\n".join(self.lines) + "\n"

    def bit(self, tile, place):
        return int(self.lines[self.tiles[tile][0] + 1 + place[0]][place[1]])

    def flip(self, tile, *places):
        """Turns bits of a tile, and answers the text."""
        for row, column in places:
            index = self.tiles[tile][0] + 1 + row
            line = self.lines[index]
            self.lines[index] = line[:column] + "10"[int(line[column])] + line[column + 1:]
        return self

    def function(self, tile, name):
        """The bits of a function of a tile."""
        return self.database.functions[self.tiles[tile][1]][name]

    def cell_bits(self, cell, *numbers):
        """Bits of a cell, which is named by its tile and its number."""
        return [self.function(cell[:2], "LC_%d" % cell[2])[number] for number in numbers]

    def link_on(self, net):
        """The tile and the bits that are 1 of the link to a net that is on, or None."""
        for link in self.database.links.get(net, []):
            if self.values(link) in link[2]:
                return link[0], [place for place in link[1] if self.bit(link[0], place)]
        return None

    def source(self, net):
        """The source of the link to a net that is on."""
        return next(link[2][self.values(link)] for link in self.database.links[net] if self.values(link) in link[2])

    def values(self, link):
        """The values of the bits of a link."""
        return "".join(str(self.bit(link[0], place)) for place in link[1])

    def net(self, tile, name):
        return self.database.nets.get((*tile, name))

    def cell_of(self, name):
        """The cell whose output a name of a net stands for."""
        for (x, y, port), net in self.database.nets.items():
            match = re.fullmatch(r"lutff_(\d)/out", port)
            if match and re.sub(r"\$SB_IO_OUT$", "", self.names.get(net, "")) == name:
                return x, y, int(match.group(1))
        raise KeyError(name)

    def other_word(self, ram, word):
        """Turns the lowest bit of a word of a RAM."""
        index = self.rams[ram] + 1 + word // 16
        line = self.lines[index]
        place = 63 - 4 * (word % 16)
        self.lines[index] = line[:place] + "%x" % (int(line[place], 16) ^ 1) + line[place + 1:]
        return self
