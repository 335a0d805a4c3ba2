#!/usr/bin/env python3
"""Tries whether tools/diagnose.py finds what the program finds in files at the edges of their forms: lines of the greatest length and one byte
more, ends of lines, names and numbers at their limits, labels with too few and too many bits, and small specifications, views, automata and
packages.

  python3 checks/edges.py PROGRAM

Prints each difference, and at the end `N files, D differences`. Ends with 1 where there is a difference.
"""
import os
import sys
import tempfile

sys.path.insert(0, os.path.dirname(os.path.abspath(__file__)))
import mutated_calls
import mutations
from mutations import held

X, A, B = b"x", b"a" * 64, b"b" * 64
START, PAIR = b'{"start":"r"}\n', b'"names":["a","b"]}\n'
LINES_OF_QUERIES = [
    X * 65536, X * 65537, X * 65535 + b"\r", X * 65536 + b"\r\n", X * 65535 + b"\r\n", b"\r\n\r\n", b"\r\r\n", b"r.a r.b\r\r\n", b" \n",
    b"r.a r.b ", b"\xef\xbb\xbfr.a r.b\n", b"r.a\x00r.b", A + b".b " + A + b"." + B, A + b"a.b r.a", b"r.a. r.b", b"r.a r.b\n\n\nr.a\n",
]
EVENTS = [
    b'{"start":"r"' + b" " * 65523 + b"}", b'{"start":"r"' + b" " * 65524 + b"}", b'{"start":"r"}\r\r\n', b'\xef\xbb\xbf{"start":"r"}', b'{"start":"r"}x',
    b"[]\n", b"null\n", b'{"start":""}\n', b'{"start":"a.b"}\n', b'{"start":"r","start":"q"}\n{"start":"q"}\n',
    START + b'{"expand":"r","production":-0,' + PAIR,
    START + b'{"expand":"r","production":18446744073709551615,' + PAIR,
    START + b'{"expand":"r","production":18446744073709551616,' + PAIR,
    START + b'{"expand":"r","production":0,"names":["a","a"]}',
    START + b'{"expand":"r","production":0,"names":["a","r"]}\n{"start":"q"}',
    b'{"start":"r","names":3,"production":[]}\n{"start":"r","production":1}\n',
    b'{"expand":"a b","production":0,"names":[]}\n' + START,
    b'{"expand":"r","production":0,' + PAIR + b'{"expand":"a","production":0,"names":["c","d"]}\n' + START,
    b'{"expand":"r","production":7,' + PAIR + b'{"expand":"r","production":0,' + PAIR + START,
    b'{"expand":"r","production":0,' + PAIR + b'{"expand":"r","names":["a","b"],"production":0,"x":1}\n' + START,
    b'{"start":"\\u0072"}\n{"start":"r"}\n{"start":"r\\u0000"}\n',
]
ONE = b'{"start":"S","modules":[{"name":"S"}]'
TWO = b'{"start":"S","modules":[{"name":"S"},{"name":"P"}],"productions":['
SPECS = [
    b"", b" ", ONE + b"}", b"\xef\xbb\xbf" + ONE + b"}", ONE + b"}\x00", ONE.replace(b'"start":"S"', b'"start":"\\u0053"') + b"}",
    ONE + b',"versions":[[1,0]]}', ONE + b',"versions":null}', ONE + b',"deps":[{"module":"S","pairs":[]}]}',
    b'{"start":"S","modules":[{"name":"S","in":["a","b","a"]}]}',
    ONE + b',"productions":[{"head":"S","body":[["a","S"]]}]}',
    TWO + b'{"head":"S","body":[["a","P"]]},{"head":"P","body":[["a","S"],["b","S"]]},{"head":"S","body":[["a","P"],["b","P"]]}]}',
    TWO + b'{"head":"S","body":[["a","P"]],"edges":[["a.","a.x"]]}]}',
    TWO + b'{"head":"S","body":[["a","P"]],"edges":[[".x","a.x"]]}]}',
]


COARSE = [
    b"", b"[]", b"null", b"{}", b'{"expand":[]}', b'{"expand":["S"]}', b'{"expand":["S","S"]}', b'{"expand":["P"]}', b'{"expand":["S"],"expand":[]}',
    b'{"expand":[],"deps":[{"module":"S","pairs":[]}]}', b'{"deps":[{"module":"Q","pairs":[["x","y"],["x","y"]]}]}', b'{"deps":null}', b"{}\x00",
]
FINE = [b"{}", b'{"expand":[]}', b'{"deps":[{"module":"P","pairs":[]}]}']
# The greatest whole number of a form, and the one behind it.
GREATEST, MORE = b"18446744073709551615", b"18446744073709551616"
AUTOMATA = [
    b"", b" ", b"{}", b"[]", b"1", b'\xef\xbb\xbf{"states":1,"start":0}', b'{"states":1,"start":0}\n\n', b'{"states":1,"start":0}1',
    *(b'{"states":%s,"start":0}' % number for number in (b"0", b"-0", b"1", b"64", b"65", b"1.0", b"1e0", b"01", GREATEST, MORE)),
    *(b'{"states":64,"start":%s}' % number for number in (b"-0", b"63", b"64", b"null", GREATEST, MORE)),
    b'{"states":2,"states":1,"start":1,"start":0}', b'{"start":0,"states":1,"x":' + b"[" * 127 + b"]" * 127 + b"}", b'{"start":0,"states":1,"x":1e999}',
    *(b'{"states":2,"start":0,"accept":%s}' % accept for accept in (b"[]", b"[1,1,0]", b"[2]", b"1", b"null", b'["0"]', b"[[0]]", b"[-1]", b"[1.5]")),
    *(b'{"states":2,"start":0,"moves":%s}' % moves for moves in (
        b"[]", b"null", b"{}", b"[[]]", b'[0,"P",1]', b'[[0,"P"]]', b'[[0,"P",1,0]]', b'[["P",0,1]]', b'[[0,"P",2]]', b'[[2,"P",0]]', b'[[0,"S",1]]',
        b'[[0,"",1]]', b'[[0,"P",1],[1,"P",1],[0,"\\u0050",0]]', b'[[0,"p",1],[0,"P",9]]', b'[[0,"P",1],[0,"P",1],[0,"p",1]]', b'[[0,"\\ud800",1]]',
    )),
]
HEXES = [
    *(("", ""), ("20", "60"), ("60", "20"), ("b0", "b0"), ("b1", "10"), ("20", "2000"), ("2001", "20"), ("20", "00"), ("a8", "30"), ("ff", "80")),
    # Chain numbers up to the greatest, and one more.
    *(("20", "B0"), ("a0", "20"), ("80000040000000", "20"), ("20", "80000040000040"), ("80000020000000", "20")),
]
OPEN = (
    b'"modules":[{"name":"A","in":["a"],"out":["b"]},{"name":"B","in":["a"],"out":["b"]},{"name":"P","in":["a"],"out":["b"]}],"productions":['
    b'{"head":"A","body":[["u","P"],["v","B"]],"edges":[["u.b","v.a"]],"in":[["a","u.a"]],"out":[["v.b","b"]]},'
    b'{"head":"A","body":[["u","P"]],"in":[["a","u.a"]],"out":[["u.b","b"]]}%s],"deps":[]'
)
BACK = b',{"head":"B","body":[["u","P"],["v","A"]],"edges":[["u.b","v.a"]],"in":[["a","u.a"]],"out":[["v.b","b"]]}'


def packages():
    """Yields packages of two modules, of which the second is closed, open, or leads back to the first, with steps of each kind."""
    for more, loops in (
        (b"", (b"[]", b'[["A",0,1]]', b'[["A",0,0]]', b'[["A",0,2]]', b'[["A",1,0]]', b'[["A",2,0]]', b'[["B",0,0]]', b'[["A",0,1],["A",0,1]]')),
        (BACK, (b"[]", b'[["A",0,1]]', b'[["A",0,1],["B",2,1]]', b'[["B",2,1],["A",0,1]]', b'[["A",0,1],["B",2,0]]', b'[["A",0,1],["B",2,1],["P",0,0]]')),
    ):
        yield from (b'{"package":1,"start":"A",%s,"loops":%s}' % (OPEN % more, part) for part in loops)
    whole = b'{"package":1,"start":"A",%s,"loops":[["A",0,1]]}' % (OPEN % b"")
    yield from (whole.replace(b'"package":1', b'"package":' + mark) for mark in (b"1.0", b"-1", b"01", b"2", b"true", b'"1"', b"2,\"package\":1"))
    yield from (whole.replace(b'["A",0,1]', part) for part in (b'["A",0]', b'["A",0,1,0]', b'[0,0,1]', b'["A","0",1]', b'["A",0,1.0]', b'["A",0,-0]', b"{}"))
    yield from (whole.replace(b'["A",0,1]', b'["A",0,%s]' % number) for number in (GREATEST, MORE))
    yield from (whole + b" \n\n", b"\xef\xbb\xbf" + whole, whole[:-1], whole[:-1] + b',"versions":[[9,9]]}', whole[:-1] + b',"loops":null}')
    yield from (whole.replace(b'"%s":' % member, b'"x":', 1) for member in (b"start", b"modules", b"productions", b"deps", b"loops"))


def entry(name, label):
    return bytes([len(name)]) + name + len(label).to_bytes(2, "big") + label


def label_files():
    """Returns label files with ends and entries that are none, or just are."""
    whole = held("line", "labels")
    names = [(b"", b"\xb0"), (b"i2.y.z", b"\xb0"), (b"i2.\xff", b"\xb0")]
    bits = [b"", b"\xb0\x00", b"\x00", b"\x30", b"\xe8", b"\xb0", b"\x20", b"\x28"]
    entries = names + [(b"i2.y", label) for label in bits]
    both = entry(b"r.a", b"\xff") + entry(b"q", b"\x20")
    return [whole[:4], whole[:36], whole[:37], whole + b"\x00", whole + both, *(whole + entry(*part) for part in entries)]


def calls():
    """Yields the files of each call."""
    spec, view, queries = {"spec": held("line", "spec")}, {"view": b"{}"}, {"queries": b"r.a r.b\n"}
    yield from ({**spec, **view, "events": held("line", "events"), "queries": data} for data in LINES_OF_QUERIES)
    yield from ({**spec, **view, "events": data, **queries} for data in EVENTS)
    yield from ({**spec, **view, "labels": data, **queries} for data in label_files())
    yield from ({"spec": data} for data in SPECS)
    yield from ({**spec, "view": fine, "coarse": data} for data in COARSE for fine in FINE)
    yield from ({**spec, **view, "auto": data} for data in AUTOMATA)
    yield from ({"package": data, "hexes": ("20", "60")} for data in packages())
    cut = next(data for data in packages() if b'[["A",0,1]]' in data)
    yield from ({"package": cut, "hexes": two} for two in HEXES)


def main(words):
    count, differences = 0, 0
    with tempfile.TemporaryDirectory() as folder:
        for files in calls():
            count += 1
            said, found = mutated_calls.compared(words[0], folder, files)
            if said != found:
                differences += 1
                print(f"file {count}: the program says `{said}`, and the tool `{found}`")
    print(f"{count} files, {differences} differences")
    return int(differences > 0)


if __name__ == "__main__":
    sys.exit(main(sys.argv[1:]))
