# Writes the text of an image whose tiles stand on lines '.KIND_tile X Y BIT BIT ...', with bits as 'B0[36]': each tile with its sixteen rows,
# in which just these bits are 1. What several lines say of one tile is taken together. All other lines come first, as they are.

BEGIN { columns[".io_tile"] = 18; columns[".logic_tile"] = 54; columns[".ramb_tile"] = columns[".ramt_tile"] = 42 }

!($1 in columns) { print; next }

{
    tile = $1 " " $2 " " $3
    if (!(tile in bits)) order[++count] = tile
    bits[tile] = bits[tile] " "
    for (word = 4; word <= NF; word++) bits[tile] = bits[tile] $word " "
}

END {
    for (place = 1; place <= count; place++) {
        tile = order[place]
        print tile
        split(tile, words, " ")
        for (row = 0; row < 16; row++) {
            line = ""
            for (column = 0; column < columns[words[1]]; column++) line = line (index(bits[tile], " B" row "[" column "] ") ? 1 : 0)
            print line
        }
    }
}
