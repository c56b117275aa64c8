"""What is odd, and how iceverify takes it: values in a netlist that yosys doesn't write, and programs that do what they shouldn't."""
import json
import shutil

LONG = "5" * 5000  # a number with more digits than Python reads
SCOPES = """import json, sys
data = json.load(open("models.json"))
for module in data["modules"].values():
    module["cells"]["$flatten.$scopeinfo"] = %r
json.dump(data, open("models.json", "w"))
"""
SCOPE = {"hide_name": 1, "type": "$scopeinfo", "parameters": {"TYPE": "module"}, "attributes": {}, "port_directions": {}, "connections": {}}


def changed(change):
    """A change of the text of a netlist: `change` gets its only top module."""
    def whole(text):
        data = json.loads(text)
        change(next(module for module in data["modules"].values() if "top" in module["attributes"]))
        return json.dumps(data)
    return whole


def net(name, **attributes):
    """Gives a net attributes."""
    return changed(lambda top: top["netnames"][name]["attributes"].update(attributes))


def net_bits(part, name, bit):
    """Gives a net or a port another first bit."""
    return changed(lambda top: top[part][name]["bits"].__setitem__(0, bit))


def cell(kind, **changes):
    """Adds a cell of a kind, with parameters, and with lists of bits at its ports."""
    def add(top):
        ports = {name: value for name, value in changes.items() if isinstance(value, list)}
        parameters = {name: value for name, value in changes.items() if not isinstance(value, list)}
        top["cells"]["other"] = {"type": kind, "parameters": parameters, "connections": ports, "attributes": {"src": "top.v:3.1-3.5"}}
    return changed(add)


def scoped(top):
    """Adds the cell that newer versions of yosys leave where they flattened something."""
    top["cells"]["$flatten.$scopeinfo"] = SCOPE


WHERE = "the netlist's cell other (top.v:3) "
# netlists that are refused: what is wrong, the change, what is said
NETLISTS = (
    ("an init that isn't bits", net("count", init="1 "), "the netlist's net count has an init that isn't a number: 1 "),
    ("an init with a point", net("count", init=2.5), "the netlist's net count has an init that isn't a number: 2.5"),
    ("an init that is a truth value", net("count", init=True), "the netlist's net count has an init that isn't a number: True"),
    ("an init of 33 bits", net("count", init=1 << 32), "the netlist's net count has an init that isn't a number: 4294967296"),
    ("a number of 5,000 digits", lambda text: text.replace('"count": {', '"count": { "offset": %s,' % LONG), "the netlist isn't in the form"),
    ("a bit with a point", cell("SB_LUT4", I0=[123.5]), WHERE + "at its port I0 has a bit that isn't known: 123.5"),
    ("a bit that is a word", cell("SB_LUT4", I0=["q"]), WHERE + "at its port I0 has a bit that isn't known: q"),
    ("a bit that is two", cell("SB_LUT4", I0=["01"]), WHERE + "at its port I0 has a bit that isn't known: 01"),
    ("a bit below 0", cell("SB_LUT4", I0=[-5]), WHERE + "at its port I0 has a bit that isn't known: -5"),
    ("a bit that is a truth value", cell("SB_LUT4", I0=[True]), WHERE + "at its port I0 has a bit that isn't known: True"),
    ("an unknown bit of a net", net_bits("netnames", "clear", "2"), "the netlist's net clear has a bit that isn't known: 2"),
    ("an unknown bit of a port", net_bits("ports", "full", 14.5), "the netlist's port full has a bit that isn't known: 14.5"),
    ("a table that isn't bits", cell("SB_LUT4", LUT_INIT="0x1234"), WHERE + "has a parameter LUT_INIT that isn't a number: 0x1234"),
    ("a table with a point", cell("SB_LUT4", LUT_INIT=1.5), WHERE + "has a parameter LUT_INIT that isn't a number: 1.5"),
    ("a PIN_TYPE of 33 bits", cell("SB_IO", PIN_TYPE=1 << 32), WHERE + "has a parameter PIN_TYPE that isn't a number: 4294967296"),
    ("contents that aren't bits", cell("SB_RAM40_4K", INIT_0="12"), WHERE + "has a parameter INIT_0 that isn't a number: 12"),
    ("a standard that is none", cell("SB_IO", IO_STANDARD=None), WHERE + "has a parameter IO_STANDARD that isn't a word: None"),
    ("a parameter more", cell("SB_LUT4", MORE="1"), WHERE + "has a parameter MORE, which its model hasn't"),
    ("a parameter of a RAM more", cell("SB_RAM40_4K", INIT_G="1"), WHERE + "has a parameter INIT_G, which its model hasn't"),
    ("a port more", cell("SB_LUT4", I4=[5]), WHERE + "has a port I4, which its model hasn't"),
    ("a port of a RAM more", cell("SB_RAM40_4K", RCLKN=[5]), WHERE + "has a port RCLKN, which its model hasn't"),
    ("two bits at a port of one", cell("SB_LUT4", I0=[5, 6]), WHERE + "has 2 bits at its port I0, where its model has 1"),
    ("12 bits of an address", cell("SB_RAM40_4K", RADDR=[5] * 12), WHERE + "has 12 bits at its port RADDR, where its model has 11"),
    ("two bits of a tri-state buffer", cell("$_TBUF_", Y=[5, 6]), WHERE + "has 2 bits at its port Y, where its model has 1"),
)


def programs(folder, **texts):
    """A folder with programs for a PATH: those that iceverify needs, and in place of some of them scripts of a shell. A dash in a name is _."""
    folder.mkdir()
    for name in ("sh", "dirname", "python3", "yosys", "yosys-abc"):
        text = texts.get(name.replace("-", "_"))
        if text is None:
            (folder / name).symlink_to(shutil.which(name))
        else:
            (folder / name).write_text("#!/bin/sh\n" + text)
            (folder / name).chmod(0o755)
    return folder


def newer_yosys():
    """A script that runs yosys from a place beside which there is no share folder, and adds what newer versions leave in its models."""
    return "%s \"$@\" || exit\n[ ! -e models.json ] || exec python3 -c '%s'\n" % (shutil.which("yosys"), (SCOPES % SCOPE).replace("'", '"'))
