#!/usr/bin/env python3
"""Writes the text of a generated network: networks.py FAMILY N.

sample N     N hosts behind firewalls at one switch (3 to 31)
chain N      N firewalls in a row between two hosts
fabric N     N zones of a firewall and two hosts each, at a switch
wide N       four boxes that know senders, over N * N packets
double N     one box that inserts two tuples of one relation at each of N * N packets
together N   one box that inserts two constants at once, and asks for both, over N * N packets
queries N    one box with N queries, all of whose masks are derivable (1 to 12)
constants N  one box whose guards ask for constants and for fields of the same relation, over N * N packets
"""
import sys


def listed(names):
    return ", ".join(names)


def addresses(n):
    return "type Addr = {%s};\nfield src : Addr;\nfield dst : Addr;\n" % listed("a%d" % i for i in range(n))


FIREWALL = """middlebox firewall {
  port in_side, out_side;
  relation trusted(Addr);
  on in_side : {
    if kind = open -> {
      insert trusted(dst);
    } fi
    output out_side;
  }
  on out_side : {
    if has trusted(src) -> {
      output in_side;
    } fi
  }
}
"""


def switch(n):
    text = "middlebox switch {\n  port %s;\n" % listed("p%d" % i for i in range(n))
    for i in range(n):
        text += "  on p%d : {\n    if " % i
        text += " | ".join("dst = a%d -> {\n      output p%d;\n    }" % (j, j) for j in range(n))
        text += " fi\n  }\n"
    return text + "}\n"


def sample(n):
    text = "network sample%d;\n" % n + addresses(n).replace("field", "type Kind = {open, data};\nfield", 1)
    text += "field kind : Kind;\n" + FIREWALL + switch(n)
    text += "".join("host h%d;\n" % i for i in range(n))
    text += "".join("box f%d : firewall;\n" % i for i in range(n)) + "box s : switch;\n"
    text += "".join("link h%d -- f%d.in_side;\nlink f%d.out_side -- s.p%d;\n" % (i, i, i, i) for i in range(n))
    text += "sends h0 : src = a0, dst = a1;\n"
    text += "".join("sends h%d : src = a%d;\n" % (i, i) for i in range(1, n))
    return text + "forbid h0 : src = a2;\n"


def chain(n):
    size = min(181, int((4194304 / (2 * (5 * n + 2))) ** 0.5))
    text = "network chain%d;\n" % n + addresses(size).replace("field", "type Kind = {open, data};\nfield", 1)
    text += "field kind : Kind;\n" + FIREWALL + "host left;\nhost right;\n"
    text += "".join("box f%d : firewall;\n" % i for i in range(n)) + "link left -- f0.in_side;\n"
    text += "".join("link f%d.out_side -- f%d.in_side;\n" % (i, i + 1) for i in range(n - 1))
    text += "link f%d.out_side -- right;\n" % (n - 1)
    return text + "sends left : kind = open;\nsends right : kind = data;\nforbid left : kind = open;\n"


def fabric(n):
    size = 2 * n
    text = "network fabric%d;\n" % n + addresses(size * 8).replace("field", "type Kind = {open, data};\nfield", 1)
    text += "field kind : Kind;\n" + FIREWALL + switch(size)
    text += "middlebox zone {\n  port one, two, up;\n  relation met(Addr);\n"
    text += "  on one : {\n    insert met(src);\n    output up;\n  }\n"
    text += "  on two : {\n    insert met(src);\n    output up;\n  }\n"
    text += "  on up : {\n    if has met(dst) -> {\n      output one;\n      output two;\n    } fi\n  }\n}\n"
    for i in range(n):
        text += "host h%d;\nhost g%d;\n" % (i, i)
    for i in range(n):
        text += "box z%d : zone;\nbox f%d : firewall;\n" % (i, i)
    text += "box s : switch;\n"
    for i in range(n):
        text += "link h%d -- z%d.one;\nlink g%d -- z%d.two;\nlink z%d.up -- f%d.in_side;\n" % (i, i, i, i, i, i)
        text += "link f%d.out_side -- s.p%d;\n" % (i, i)
    for i in range(n):
        text += "sends h%d : src = a%d;\nsends g%d : src = a%d;\n" % (i, i, i, i + n)
    return text + "forbid h0 : src = a%d;\n" % (size * 8 - 1)


def register(inserted, guard):
    text = "middlebox register {\n  port left, right;\n  relation known(Addr);\n  on left : {\n"
    text += "".join("    insert known(%s);\n" % name for name in inserted)
    text += "    output right;\n  }\n  on right : {\n    if %s -> {\n      output left;\n    } fi\n  }\n}\n" % guard
    return text + "host one;\nhost two;\n"


def wide(n):
    text = "network wide%d;\n" % n + addresses(n)
    text += register(["src"], "has known(dst) and not has known(src)")
    text += "".join("box b%d : register;\n" % i for i in range(4))
    text += "link one -- b0.left;\n" + "".join("link b%d.right -- b%d.left;\n" % (i, i + 1) for i in range(3))
    return text + "link b3.right -- two;\nsends one : true;\nsends two : true;\nforbid one : src = a0, dst = a0;\n"


def one_register(name, n, inserted, guard):
    text = "network %s%d;\n" % (name, n) + addresses(n) + register(inserted, guard)
    return text + "box b : register;\nlink one -- b.left;\nlink b.right -- two;\nsends one : true;\nsends two : true;\n"


def double(n):
    return one_register("double", n, ["src", "dst"], "has known(src) and has known(dst)")


def together(n):
    return one_register("together", n, ["a0", "a1"], "has known(a0) and has known(a1)")


def queries(n):
    names = ["v%d" % i for i in range(n)]
    text = "network queries%d;\ntype V = {%s};\nfield f : V;\n" % (n, listed(names))
    text += "middlebox box_of_many {\n  port i, o, c;\n  relation r(V);\n"
    text += "  on i : {\n    insert r(f);\n    if %s -> {\n      output o;\n    } fi\n  }\n" % (
        " and ".join("has r(%s)" % name for name in names))
    text += "  on c : {\n    remove r(f);\n  }\n}\n"
    text += "host h;\nhost k;\nhost m;\nbox b : box_of_many;\nlink h -- b.i;\nlink k -- b.o;\nlink m -- b.c;\n"
    return text + "sends h : true;\nsends m : true;\n"


def constants(n):
    text = "network constants%d;\n" % n + addresses(n)
    text += "middlebox mixed {\n  port i, o;\n  relation r(Addr);\n  on i : {\n"
    text += "    if has r(src) and not has r(a0) -> {\n      remove r(src);\n      insert r(a0);\n"
    text += "    } | not has r(dst) -> {\n      insert r(dst);\n      output o;\n"
    text += "    } | has r(a0) and has r(a1) -> {\n      remove r(a0);\n      remove r(a1);\n      output o;\n    } fi\n  }\n}\n"
    text += "host h;\nhost k;\nbox b : mixed;\nlink h -- b.i;\nlink k -- b.o;\n"
    return text + "sends h : true;\nforbid k : src = a0, dst = a1;\n"


FAMILIES = {f.__name__: f for f in (sample, chain, fabric, wide, double, together, queries, constants)}

if __name__ == "__main__":
    if len(sys.argv) != 3 or sys.argv[1] not in FAMILIES:
        sys.exit(__doc__)
    sys.stdout.write(FAMILIES[sys.argv[1]](int(sys.argv[2])))
