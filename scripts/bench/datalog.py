#!/usr/bin/env python3
"""Writes the same work as networks.py for clingo: datalog.py FAMILY N.

The atoms that are shown are the derivable facts: out(End, Packet..) and state(Box, Packet.., Bits..), each bit that of
a query in the order of the class. What a box answers first is 0 everywhere. The writes of a family go to a predicate
of their own, so that a firing is joined with what it writes and not with each other packet; where two packets must
agree on a tuple, the rules say so.
"""
import sys

FIREWALL = """
state(F,S,D,K,0) :- firewall(F), packet(S,D,K).
out(port(F,outside),S,D,K) :- firewall(F), link(E,port(F,inside)), out(E,S,D,K).
trusts(F,D) :- firewall(F), link(E,port(F,inside)), out(E,S,D,open).
state(F,S,D,K,1) :- trusts(F,S), state(F,S,D,K,0).
out(port(F,inside),S,D,K) :- firewall(F), link(E,port(F,outside)), out(E,S,D,K), state(F,S,D,K,1).
"""

ZONE = """
state(Z,S,D,K,0) :- zone(Z), packet(S,D,K).
out(port(Z,up),S,D,K) :- zone(Z), link(E,port(Z,one)), out(E,S,D,K).
out(port(Z,up),S,D,K) :- zone(Z), link(E,port(Z,two)), out(E,S,D,K).
meets(Z,S) :- zone(Z), link(E,port(Z,one)), out(E,S,D,K).
meets(Z,S) :- zone(Z), link(E,port(Z,two)), out(E,S,D,K).
state(Z,S,D,K,1) :- meets(Z,D), state(Z,S,D,K,0).
out(port(Z,one),S,D,K) :- zone(Z), link(E,port(Z,up)), out(E,S,D,K), state(Z,S,D,K,1).
out(port(Z,two),S,D,K) :- zone(Z), link(E,port(Z,up)), out(E,S,D,K), state(Z,S,D,K,1).
"""

SWITCH = """
state(switch,S,D,K) :- packet(S,D,K).
out(port(switch,D),S,D,K) :- link(E,port(switch,_)), out(E,S,D,K), D < ports.
"""

REGISTER = """
out(one,S,D) :- packet(S,D).
out(two,S,D) :- packet(S,D).
state(b,S,D,0,0) :- packet(S,D).
out(right,S,D) :- out(one,S,D).
out(left,S,D) :- out(two,S,D), state(b,S,D,1,1).
"""

LINKS = """
link(Y,X) :- link(X,Y).
"""


def packets(size, kinds=True):
    text = "address(0..%d).\n" % (size - 1)
    if kinds:
        return text + "kind(open).\nkind(data).\npacket(S,D,K) :- address(S), address(D), kind(K).\n"
    return text + "packet(S,D) :- address(S), address(D).\n"


def sample(n):
    text = packets(n) + FIREWALL + SWITCH + LINKS + "#const ports = %d.\n" % n
    text += "firewall(f(0..%d)).\n" % (n - 1)
    text += "".join("link(host(%d),port(f(%d),inside)).\nlink(port(f(%d),outside),port(switch,%d)).\n" % (i, i, i, i)
                    for i in range(n))
    text += "out(host(0),0,1,K) :- kind(K).\n"
    return text + "out(host(H),H,D,K) :- H = 1..%d, address(D), kind(K).\n" % (n - 1)


def chain(n):
    size = min(181, int((4194304 / (2 * (5 * n + 2))) ** 0.5))
    text = packets(size) + FIREWALL + LINKS + "firewall(f(0..%d)).\nlink(left,port(f(0),inside)).\n" % (n - 1)
    text += "".join("link(port(f(%d),outside),port(f(%d),inside)).\n" % (i, i + 1) for i in range(n - 1))
    text += "link(port(f(%d),outside),right).\n" % (n - 1)
    return text + "out(left,S,D,open) :- packet(S,D,open).\nout(right,S,D,data) :- packet(S,D,data).\n"


def fabric(n):
    text = packets(16 * n) + FIREWALL + ZONE + SWITCH + LINKS + "#const ports = %d.\n" % (2 * n)
    text += "firewall(f(0..%d)).\nzone(z(0..%d)).\n" % (n - 1, n - 1)
    for i in range(n):
        text += "link(host(%d),port(z(%d),one)).\nlink(guest(%d),port(z(%d),two)).\n" % (i, i, i, i)
        text += "link(port(z(%d),up),port(f(%d),inside)).\nlink(port(f(%d),outside),port(switch,%d)).\n" % (i, i, i, i)
        text += "out(host(%d),%d,D,K) :- address(D), kind(K).\n" % (i, i)
        text += "out(guest(%d),%d,D,K) :- address(D), kind(K).\n" % (i, i + n)
    return text


def wide(n):
    text = packets(n, False) + LINKS + "box(b(0..3)).\nlink(one,port(b(0),left)).\nlink(port(b(3),right),two).\n"
    text += "".join("link(port(b(%d),right),port(b(%d),left)).\n" % (i, i + 1) for i in range(3))
    return text + """
out(one,S,D) :- packet(S,D).
out(two,S,D) :- packet(S,D).
state(B,S,D,0,0) :- box(B), packet(S,D).
out(port(B,right),S,D) :- box(B), link(E,port(B,left)), out(E,S,D).
knows(B,S) :- box(B), link(E,port(B,left)), out(E,S,D).
state(B,S,D,1,Y) :- knows(B,D), state(B,S,D,0,Y), S != D.
state(B,S,D,X,1) :- knows(B,S), state(B,S,D,X,0), S != D.
state(B,S,S,1,1) :- knows(B,S), state(B,S,S,0,0).
out(port(B,left),S,D) :- box(B), link(E,port(B,right)), out(E,S,D), state(B,S,D,1,0).
"""


def double(n):
    return packets(n, False) + REGISTER + """
writes(S,D) :- out(one,S,D).
writes(D,S) :- out(one,S,D).
state(b,S,D,1,Y) :- writes(S,X), state(b,S,D,0,Y), X != D, S != D.
state(b,S,D,Y,1) :- writes(D,X), state(b,S,D,Y,0), X != S, S != D.
state(b,S,D,1,1) :- writes(S,D), state(b,S,D,X,Y).
"""


def together(n):
    return packets(n, False) + REGISTER + """
writes :- out(one,S,D).
state(b,S,D,1,1) :- writes, state(b,S,D,X,Y).
"""


def queries(n):
    bits = ["B%d" % i for i in range(n)]
    text = "packet(0..%d).\nout(h,P) :- packet(P).\nout(m,P) :- packet(P).\n" % (n - 1)
    text += "state(b,P,%s) :- packet(P).\n" % ",".join(["0"] * n)
    for i in range(n):
        before, now = ",".join(bits), [",".join(bits[:i] + [bit] + bits[i + 1:]) for bit in "01"]
        for bit, host in ((1, "h"), (0, "m")):
            text += "state(b,Q,%s) :- out(%s,%d), state(b,%d,%s), state(b,Q,%s).\n" % (
                now[bit], host, i, i, before, before)
        text += "out(o,%d) :- out(h,%d), state(b,%d,%s).\n" % (
            i, i, i, ",".join("_" if j == i else "1" for j in range(n)))
    return text


def constants(n):
    """The queries ask for src, the constant 0, dst and the constant 1: each firing is joined with each packet."""
    return packets(n, False) + """
bit(0..1).
out(h,S,D) :- packet(S,D).
state(b,S,D,0,0,0,0) :- packet(S,D).
fires(S,D,A,0,C,E,take) :- out(h,S,D), state(b,S,D,A,0,C,E), A = 1.
fires(S,D,A,B,0,E,know) :- out(h,S,D), state(b,S,D,A,B,0,E).
fires(S,D,A,B,C,E,drop) :- out(h,S,D), state(b,S,D,A,B,C,E), B = 1, E = 1.
out(o,S,D) :- fires(S,D,_,_,_,_,know).
out(o,S,D) :- fires(S,D,_,_,_,_,drop).

% how a tuple is written, which of its bits go with those at the fired packet, and what becomes of such a bit
writes(S,D,take,S,0) :- packet(S,D), S != 0.
writes(S,D,take,0,1) :- packet(S,D).
writes(S,D,know,D,1) :- packet(S,D).
writes(S,D,drop,0..1,0) :- packet(S,D).
written(S,D,W,T) :- writes(S,D,W,T,_).
fits(f(S,D,A,B,C,E,W),T,O) :- fires(S,D,A,B,C,E,W), address(T), bit(O),
    1 { T != S; A = O }, 1 { T != 0; B = O }, 1 { T != D; C = O }, 1 { T != 1; E = O }.
moves(f(S,D,A,B,C,E,W),T,O,N) :- fits(f(S,D,A,B,C,E,W),T,O), writes(S,D,W,T,N).
moves(f(S,D,A,B,C,E,W),T,O,O) :- fits(f(S,D,A,B,C,E,W),T,O), not written(S,D,W,T).
state(b,S,D,A,B,C,E) :- state(b,S,D,I,J,K,L), moves(F,S,I,A), moves(F,0,J,B), moves(F,D,K,C), moves(F,1,L,E).
"""


FAMILIES = {f.__name__: f for f in (sample, chain, fabric, wide, double, together, queries, constants)}
SHOWN = {"wide": (3, 5), "double": (3, 5), "together": (3, 5), "constants": (3, 7)}


def shown(family, n):
    """The arities of what is shown: of out, and of state."""
    if family == "queries":
        return ((2, n + 2),)
    if family in SHOWN:
        return (SHOWN[family],)
    return ((4, 5), (4, 4)) if family in ("sample", "fabric") else ((4, 5),)


def text_of(family, n):
    lines = sorted({line for out, state in shown(family, n)
                    for line in ("#show out/%d.\n" % out, "#show state/%d.\n" % state)})
    return FAMILIES[family](n) + "".join(lines)


if __name__ == "__main__":
    if len(sys.argv) != 3 or sys.argv[1] not in FAMILIES:
        sys.exit(__doc__)
    sys.stdout.write(text_of(sys.argv[1], int(sys.argv[2])))
