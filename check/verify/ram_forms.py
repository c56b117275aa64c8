"""A simulation of block RAMs: the model that yosys ships beside the forms in which icebox_vlog writes them, in each mode, as the modules of
iceverify understand both."""
import sys

from modules.programs import TOP

sys.path.insert(0, str(TOP / "packaging" / "verify"))

from building import GROUPS  # noqa: E402
from module import NARROW  # noqa: E402

WORDS = {mode: int(word, 16) for word, mode in NARROW.items()} | {0: 0xffff}
PORTS = "input RCLK, RCLKE, RE, WCLK, WCLKE, WE, input [10:0] RADDR, WADDR, input [15:0] MASK, WDATA, output [15:0] RDATA"
NAMES = "RCLK", "RCLKE", "RE", "WCLK", "WCLKE", "WE", "RADDR", "WADDR", "MASK", "WDATA"


def shift_of(mode, port):
    """The address bits above the lowest eight, as far as a mode has them."""
    return "{%s}" % ", ".join("%s[%d]" % (port, bit) if bit < 8 + mode else "1'b0" for bit in (10, 9, 8))


def form(read, write):
    """A module with the forms of a read mode and a write mode."""
    group, first = GROUPS[read]
    taken = ["rd[%d]" % (bit - first) if bit >= first and (bit - first) % group == 0 else "1'b0" for bit in range(16)]
    wide, offset = GROUPS[write]
    data = "{%s}" % ", ".join("WDATA[%d]" % (wide * (bit // wide) + offset) for bit in reversed(range(16)))
    mask = "(16'h%04x << %s)" % (WORDS[write], shift_of(write, "WADDR")) if write else "(~MASK)"
    return """module form_%d_%d (%s);
  reg [15:0] rd = 0;
  reg [15:0] mem [0:255];
  integer k;
  initial for (k = 0; k < 256; k = k + 1) mem[k] = 0;
  always @(posedge RCLK) if (RCLKE & RE) rd <= (mem[RADDR[7:0]] >> %s) & 16'h%04x;
  always @(posedge WCLK) if (WCLKE & WE) mem[WADDR[7:0]] <= (mem[WADDR[7:0]] & ~%s) | (%s & %s);
  assign RDATA = {%s};
endmodule
""" % (read, write, PORTS, shift_of(read, "RADDR"), WORDS[read], mask, data, mask, ", ".join(reversed(taken)))


def bench(cycles):
    """A simulation that says `same` if in all modes and cycles both read the same."""
    connected = ", ".join(".%s(%s)" % (name, name) for name in NAMES)
    lines = [form(read, write) for read in range(4) for write in range(4)]
    lines += ["module bench;", "  reg RCLK = 0, RCLKE = 0, RE = 0, WCLK = 0, WCLKE = 0, WE = 0;", "  reg [10:0] RADDR, WADDR;",
              "  reg [15:0] MASK, WDATA;", "  integer cycle, wrong = 0;", "  wire [15:0] one [0:15], other [0:15];"]
    for read in range(4):
        for write in range(4):
            place = 4 * read + write
            lines += ["  SB_RAM40_4K #(.READ_MODE(%d), .WRITE_MODE(%d)) cell%d (%s, .RDATA(one[%d]));" % (read, write, place, connected, place),
                      "  form_%d_%d form%d (%s, .RDATA(other[%d]));" % (read, write, place, connected, place)]
    lines += ["  integer k;", "  initial begin", "    for (cycle = 0; cycle < %d; cycle = cycle + 1) begin" % cycles,
              "      {RCLKE, WCLKE} = $random; RE = $random | cycle < 9; WE = $random;",
              "      RADDR = $random; WADDR = $random; RADDR[6:2] = 0; WADDR[6:2] = 0;", "      MASK = $random; WDATA = $random;",
              "      if (cycle < 9) begin RCLKE = 1; WE = 0; end", "      #1 RCLK = $random; WCLK = $random;", "      if (cycle < 9) RCLK = 1;",
              "      #1 for (k = 0; k < 16; k = k + 1) if (one[k] !== other[k]) wrong = wrong + 1;", "      #1 RCLK = 0; WCLK = 0;", "    end",
              "    if (wrong == 0) $display(\"same\"); else $display(\"%d words differ\", wrong);", "  end", "endmodule"]
    return "\n".join(lines) + "\n"
