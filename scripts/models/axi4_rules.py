#!/usr/bin/env python3
"""Reads port files and works out their rules, apart from the repository's code.

`scripts/models/axi4_rules.py FILE` prints the tokens of the rules of a port file's ports, a rule a line. `edge_ports`,
`worked_ports` and `fault_files` are what the gate and random cases run: ports at the edges of what a port file may
say, ports that were counted by hand, and small port files, some with a fault.

Rules are written here as people write them, with c or x for the channel, and are cut into tokens by
the lexer of assertions; a path is one token.
"""
import itertools
import re
import sys

PAYLOAD = {
    "aw": "id addr len size burst lock cache prot", "w": "strb last", "b": "id resp",
    "ar": "id addr len size burst lock cache prot", "r": "id resp last",
}
CHANNEL = {
    "c_reset": "!N |=> !cvalid",
    "c_hold": "cvalid && !cready |=> cvalid",
    "S_stable": "cvalid && !cready |=> $stable(S)",
    "c_wait": "cvalid && !cready |-> ##[1:W] cready",
}
T = "(({12'd0, xlen} + 20'd1) << xsize)"
ADDRESS = {
    "x_burst": "xvalid |-> xburst != 2'b11",
    "x_len": "xvalid && xburst != 2'b01 |-> xlen <= 8'd15",
    "x_size": "xvalid |-> xsize <= 3'dLOG",
    "x_wrap_len": "xvalid && xburst == 2'b10 |-> xlen == 8'd1 || xlen == 8'd3 || xlen == 8'd7 || xlen == 8'd15",
    "x_wrap_align": "xvalid && xburst == 2'b10 |-> (xaddr & ((A'd1 << xsize) - A'd1)) == A'd0",
    "x_4k": f"xvalid && xburst == 2'b01 |-> ({{8'd0, xaddr[11:0]}} & ~((20'd1 << xsize) - 20'd1)) + {T} <= 20'd4096",
    "x_cache": "xvalid && !xcache[1] |-> xcache[3:2] == 2'b00",
    "x_excl_len": "xvalid && xlock |-> xlen <= 8'd15",
    "x_excl_bytes": f"xvalid && xlock |-> $onehot({T}) && {T} <= 20'd128",
    "x_excl_align": f"xvalid && xlock |-> ({{8'd0, xaddr[11:0]}} & ({T} - 20'd1)) == 20'd0",
}
AW, W, B, AR, R = (f"{c}valid && {c}ready" for c in ("aw", "w", "b", "ar", "r"))
COUNTERS = {
    "awo [16]": f"add({AW}, 1) sub({B}, 1)",
    "wlo [16]": f"add({W} && wlast, 1) sub({B}, 1)",
    "aro [16]": f"add({AR}, 1) sub({R} && rlast, 1)",
}
ID_COUNTERS = {
    "awo_ID [16]": f"add({AW} && awid == ID, 1) sub({B} && bid == ID, 1)",
    "aro_ID [16]": f"add({AR} && arid == ID, 1) sub({R} && rlast && rid == ID, 1)",
}
SINGLE_COUNTERS = {
    "wlock [1]": f"load({AW}, awlock)", "rlock [1]": f"load({AR}, arlock)",
    "wlen [8]": f"load({AW}, awlen)", "rlen [8]": f"load({AR}, arlen)",
    "wbeat [9]": f"load({W} && wlast, 0) add({W}, 1)",
    "rbeat [9]": f"load({R} && rlast, 0) add({R}, 1)",
}
RESPONSES = {
    "b_after_aw": "bvalid |-> p_awo != 0",
    "b_after_w": "bvalid |-> p_wlo != 0",
    "r_after_ar": "rvalid |-> p_aro != 0",
}
ID_RESPONSES = {
    "b_id_ID": "bvalid && bid == ID |-> p_awo_ID != 0",
    "r_id_ID": "rvalid && rid == ID |-> p_aro_ID != 0",
}
SINGLE_RESPONSES = {
    "b_exokay": "bvalid && bresp == 2'b01 |-> p_wlock",
    "r_exokay": "rvalid && rresp == 2'b01 |-> p_rlock",
    "w_last": "wvalid && p_awo == 1 && p_wlo == 0 |-> wlast == (p_wbeat == p_wlen)",
    "r_last": "rvalid && p_aro == 1 |-> rlast == (p_rbeat == p_rlen)",
}
SUFFIXES = "valid ready last id addr len size burst lock cache prot strb resp"
SIGNALS = {c + s for c in PAYLOAD for s in SUFFIXES.split()}
TOKEN = re.compile(r"[A-Za-z_][A-Za-z0-9_$.]*|\$[a-z0-9]+|\d+'[bdh][0-9a-f]+|\d+|\|->|\|=>|##|<<|<=|==|!=|&&|\|\||\S")
KEYWORDS = set(
    "sequence endsequence assert assume property posedge disable iff or and throughout intersect within first_match "
    "strong weak not if else case always nexttime eventually until s_always s_nexttime s_eventually s_until "
    "s_until_with until_with implies "
    "accept_on reject_on cover restrict default clocking negedge edge local".split())


class Fault(Exception):
    pass


def is_word(text):
    return re.fullmatch(r"[A-Za-z_][A-Za-z0-9_$]*", text) is not None


def is_path(text):
    words = text.split(".")
    return all(map(is_word, words)) and words[0] not in KEYWORDS


def port_of(line, number):
    """The port of a line, as a dictionary of texts and numbers."""
    bad = Fault(f"X4 BadLine {number}")
    words = [w for w in line.split(" ") if w]
    port = {"wait": "16", "mode": "multi", "case": "lower"}
    given = {}
    if words[0] != "port" or len(words) < 2:
        raise bad
    for word in words[2:]:
        key, equals, value = word.partition("=")
        if not equals or key in given or key not in ("clock", "reset", "prefix", "addr", "data", "id", "wait", "mode",
                                                     "case", "watch"):
            raise bad
        given[key] = value
    port |= given
    port["name"] = words[1]
    watch = given["watch"].split(",") if "watch" in given else []
    if not {"clock", "reset", "prefix", "addr", "data", "id"} <= set(given):
        raise bad
    if port["mode"] not in ("multi", "single") or port["case"] not in ("lower", "upper"):
        raise bad
    for text in [port["addr"], port["data"], port["id"], port["wait"], *watch]:
        if not re.fullmatch("[0-9]+", text):
            raise bad
    for key in ("addr", "data", "id", "wait"):
        port[key] = int(port[key])
    port["watch"] = [int(text) for text in watch]
    check(port)
    return port


def check(port):
    if not (12 <= port["addr"] <= 64 and port["data"] in (8, 16, 32, 64, 128) and 1 <= port["id"] <= 16
            and port["wait"] <= 64):
        raise Fault("X1 BadWidth")
    ids = port["watch"]
    if len(ids) > 16 or len(set(ids)) < len(ids) or any(i >= 2 ** port["id"] for i in ids):
        raise Fault("X2 BadId")
    if not (is_word(port["name"]) and is_path(port["clock"]) and is_path(port["reset"])
            and is_path(port["prefix"] + "awvalid")):
        raise Fault("X3 BadName")


def read(text):
    lines = list(enumerate(text.split("\n"), 1))
    return [port_of(line, number) for number, line in lines if line.strip(" ") and not line.startswith("#")]


def signal(port, name):
    return port["prefix"] + (name.upper() if port["case"] == "upper" else name)


def fill(port, text, channel="", item=""):
    """The tokens of a text of the table."""
    tokens = []
    special = {"N": port["reset"], "W": str(port["wait"]), "ID": item, "S": signal(port, channel + item)}
    text = text.replace("LOG", str((port["data"] // 8).bit_length() - 1)).replace("A'd", f"{port['addr']}'d")
    for token in TOKEN.findall(text):
        if channel and token[0] in "cx" and token[1:] in SUFFIXES.split():
            token = signal(port, channel + token[1:])
        elif not channel and token in SIGNALS:
            token = signal(port, token)
        elif token.startswith("p_"):
            token = port["name"] + token[1:].replace("_ID", "_" + item)
        tokens.append(special.get(token, token))
    return tokens


def rule(port, name, text, channel="", item="", in_reset=False):
    guard = [] if in_reset else ["disable", "iff", "(", "!", port["reset"], ")"]
    head = [f"{port['name']}_{name}", ":", "assert", "property", "(", "@", "(", "posedge", port["clock"], ")"]
    return [*head, *guard, *fill(port, text, channel, item), ")", ";"]


def counter(port, name, text, item=""):
    head = TOKEN.findall(f"counter {port['name']}_{name.replace('ID', item)} clear")
    return [*head, "(", "!", port["reset"], ")", *fill(port, text, "", item), ";"]


def channel_rules(port, channel):
    yield rule(port, f"{channel}_reset", CHANNEL["c_reset"], channel, in_reset=True)
    yield rule(port, f"{channel}_hold", CHANNEL["c_hold"], channel)
    for item in PAYLOAD[channel].split():
        yield rule(port, f"{channel}{item}_stable", CHANNEL["S_stable"], channel, item)
    if port["wait"]:
        yield rule(port, f"{channel}_wait", CHANNEL["c_wait"], channel)


def rules(port):
    """The lines of a port, each a list of tokens."""
    ids = [str(i) for i in port["watch"]]
    single = port["mode"] == "single"
    lines = [line for channel in PAYLOAD for line in channel_rules(port, channel)]
    lines += [rule(port, name.replace("x", channel, 1), text, channel) for channel in ("aw", "ar")
              for name, text in ADDRESS.items()]
    lines += [counter(port, name, text) for name, text in COUNTERS.items()]
    lines += [counter(port, name, text, i) for name, text in ID_COUNTERS.items() for i in ids]
    lines += [counter(port, name, text) for name, text in SINGLE_COUNTERS.items() if single]
    lines += [rule(port, name, text) for name, text in RESPONSES.items()]
    lines += [rule(port, name.replace("ID", i), text, item=i) for name, text in ID_RESPONSES.items() for i in ids]
    lines += [rule(port, name, text) for name, text in SINGLE_RESPONSES.items() if single]
    return lines


def answer(text):
    try:
        return f"ports {len(read(text))}"
    except Fault as fault:
        return str(fault)


def edge_ports():
    """Every width of data, IDs of 1 and 16 bits, no wait, one tick and 64, both modes, both cases, with and without
    watched IDs."""
    sizes = itertools.product((8, 16, 32, 64, 128), (1, 16), (0, 1, 64), ("multi", "single"), ("lower", "upper"),
                              (False, True))
    for at, (data, width, wait, mode, case, is_watching) in enumerate(sizes):
        ids = "1,0" if width == 1 else "65535,0,7"
        watch = f" watch={ids}" if is_watching else ""
        prefix = ("top.u.s_", "", "axi_")[at % 3]
        yield (f"port p{at} clock=top.clk reset=top.rst_n prefix={prefix} addr={12 + at % 53} data={data} id={width} "
               f"wait={wait}"
               f" mode={mode} case={case}{watch}")


GOOD = "port p clock=t.clk reset=t.rst_n prefix=t.s_ addr=32 data=64 id=4"
PARTS = ["clock=t.clk", "reset=t.rst_n", "prefix=t.s_", "addr=32", "data=64", "id=4"]


def with_part(key, value):
    return " ".join(f"{key}={value}" if word.startswith(key + "=") else word for word in GOOD.split(" "))


def fault_files():
    yield from ("", "\n\n", "# nothing", "  ", GOOD, GOOD + "\n", f"\n# a port\n{GOOD}\n{GOOD}", f" {GOOD}",
                GOOD + "  wait=0   mode=single ")
    yield from (GOOD + "\r\n", GOOD.replace(" ", "\t", 1), GOOD + "\twait=3", " # no comment", "part q",
                f"{GOOD}\n\npart q", "port", "port p")
    yield from (" ".join(w for w in GOOD.split() if w != part) for part in PARTS)
    yield from (f"{GOOD} {part}" for part in PARTS)
    values = {
        "addr": ("11", "12", "64", "65", "", "x", "+12", "1_2", "0012", "99999999999999999999999999", "12 "),
        "data": ("0", "8", "16", "24", "32", "64", "128", "256", "080"), "id": ("0", "1", "16", "17", "-1", "0x4"),
        "clock": ("", ".", "a.", ".a", "a..b", "a", "assert", "assert.a", "a.assert", "counter.a", "a b", "9a", "a-b",
                  "a$b._c", "$a", "é"),
        "reset": ("!a", "not", "a.not", "until"), "prefix": ("", "a.", "if.", "a", "9", "a.b.c_", "a-", "."),
    }
    yield from (with_part(key, value) for key, them in values.items() for value in them)
    yield from (GOOD.replace("port p", "port " + name)
                for name in ("assert", "9", "p.q", "p$", "_", "a=b", "clock=a", "é"))
    options = ("wait=0", "wait=64", "wait=65", "wait=", "wait=1 wait=1", "mode=multi", "mode=single", "mode=",
               "mode=Multi", "mode=many")
    options += ("case=upper", "case=lower", "case=", "case=UPPER", "depth=1", "wait", "=3", "Wait=3", "watch=0",
                "watch=15", "watch=16", "watch=")
    options += ("watch=1,", "watch=,1", "watch=1,1", "watch=1,01", "watch=1,,2", "watch=70000", "watch=" + "9" * 40,
                "watch=3,5", "watch=1 watch=2")
    options += ("watch=" + ",".join(map(str, range(16))), "watch=" + ",".join(map(str, [*range(16), 0])))
    yield from (f"{GOOD} {option}" for option in options)
    yield with_part("id", "5") + " watch=" + ",".join(map(str, range(17)))
    yield with_part("id", "2") + " watch=4"
    broken = {"X1": ("wait=16", "wait=99"), "X2": ("watch=0", "watch=99"), "X3": ("prefix=t.s_", "prefix=if."),
              "X4": ("mode=multi", "mode=none")}
    whole = GOOD + " wait=16 watch=0 mode=multi"
    for one, two in itertools.permutations(broken, 2):
        yield whole.replace(*broken[one]).replace(*broken[two])
        yield whole.replace(*broken[one]) + "\n" + whole.replace(*broken[two])
        yield f"#\n{GOOD}\n" + whole.replace(*broken[two])


def worked_ports():
    """Ports whose rules were counted by hand, 61, 65 and 64, and one with its fields in another order."""
    yield GOOD.replace("port p", "port plain")
    yield GOOD.replace("port p", "port single") + " mode=single"
    yield GOOD.replace("port p", "port watched") + " wait=0 mode=single watch=3,5"
    yield "port turned id=3 watch=5,0 case=upper reset=r clock=t.c prefix=u. addr=12 data=8"


def main():
    with open(sys.argv[1], newline="") as it:
        ports = read(it.read())
    print("\n".join(" ".join(line) for port in ports for line in rules(port)))


if __name__ == "__main__":
    main()
