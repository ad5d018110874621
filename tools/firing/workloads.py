#!/usr/bin/env python3
"""The texts whose firings `tools/measure_firing` counts, each of a size N, and what a run of each must print.

    tools/firing/workloads.py [NAME [N]]

Without a word it prints the names; with one the text of that name, of the size that is measured or of N.

An answer is worked out here without any rewriting: how many firings there are, and what the line of the process says.
"""
import re
import sys

LAPS = 3            # of the token in `ring`
WORK = 1000         # firings of the one membrane that works in `asleep`
BITS = 20           # of the counter in `petri`
COPIES = 100        # of the tree in `ground`
LOAD = 10           # atoms that the traveller of `ambient` carries


def numbers(low, high):
    return ','.join(map(str, range(low, high)))


# sum: the numbers from 1 to N, added up two by two.

def sum_text(n):
    return ''.join(f'p({i}). ' for i in range(1, n + 1)) + '\np($x), p($y) :- $z = $x + $y | p($z).\n'


def sum_answer(n):
    return n - 1, lambda line: line.startswith(f'p(L0). {n * (n + 1) // 2}(L0). (')


# append: a list of N numbers before a list of one; reverse: a list of N numbers is turned round by appending.

APPEND = 'append([],Y,Z) :- Y=Z.\nappend([A|X],Y,Z) :- Z=[A|W], append(X,Y,W).\n'


def list_of(line):
    """The list that `ans` holds."""
    empty, cells, integers, start = set(), {}, {}, None
    for name, links in re.findall(r"('\.'|'\[\]'|ans|-?\d+)\(([^)]*)\)", re.split(r' \((?:append|reverse)', line)[0]):
        links = links.split(', ')
        if name == 'ans':
            start = links[0]
        elif name == "'.'":
            cells[links[2]] = links[:2]
        elif name == "'[]'":
            empty.add(links[0])
        else:
            integers[links[0]] = int(name)
    found = []
    while start in cells:
        first, start = cells[start]
        found.append(integers[first])
    return found if start in empty else None


def append_text(n):
    return f'append([{numbers(1, n + 1)}],[0],R), ans(R).\n' + APPEND


def append_answer(n):
    return n + 1, lambda line: list_of(line) == list(range(1, n + 1)) + [0]


def reverse_text(n):
    rules = 'reverse([],R) :- R=[].\nreverse([H|T],R) :- reverse(T,S), append(S,[H],R).\n'
    return f'reverse([{numbers(1, n + 1)}],R), ans(R).\n' + rules + APPEND


def reverse_answer(n):
    return (n + 1) * (n + 2) // 2, lambda line: list_of(line) == list(range(n, 0, -1))


# ring: N stations, two at least, each a membrane with two rules and a counter; a rule of the root hands a token on along a link.

def ring_text(n):
    stations = ''.join(
        f"{{st({i}), in(L{i}), out(L{(i + 1) % n}), left({LAPS}){', got' if i == 0 else ''}. "
        'got, left($c) :- $c > 0, $d = $c - 1 | left($d), pass. '
        'got, left($c) :- $c =:= 0 | stop, left($c).}.\n' for i in range(n))
    return stations + '{pass, out(L), $p, @r}, {in(L), $q, @s} :- {out(K), $p, @r}, {in(K), got, $q, @s}.\n'


def ring_answer(n):
    def is_right(line):
        stations = re.findall(r'\{([^{}]*?), \(got', line)
        for station in stations:
            number = re.search(r'(\d+)\(%s\)' % re.search(r'st\((L\d+)\)', station)[1], station)[1]
            if not re.search(r'(?<!\w)0\(%s\)' % re.search(r'left\((L\d+)\)', station)[1], station):
                return False
            if ('stop' in station) != (number == '0'):
                return False
        return len(stations) == n

    return 2 * LAPS * n + 1, is_right


# asleep: N membranes in which no rule ever matches, and behind them one that counts down from WORK.

def asleep_text(n):
    idle = ''.join(f'{{idle({i}). go, idle($x) :- int($x) | done.}}.\n' for i in range(n))
    return idle + f'{{c({WORK}). c($n) :- $n > 0, $m = $n - 1 | c($m).}}.\n'


def asleep_answer(n):
    return WORK, lambda line: f'{{c(L{n}), 0(L{n}), (c(' in line


# petri: a counter of BITS bits as a net with a token for each place, and N pulses.

def petri_text(n):
    rules = ['t, z0 :- o0.', 't, o0 :- z0, c1.']
    for i in range(1, BITS):
        rules += [f'c{i}, z{i} :- o{i}.', f'c{i}, o{i} :- z{i}, c{i + 1}.']
    rules.append('gen($n) :- $n > 0, $m = $n - 1 | gen($m), t.')
    return ', '.join(f'z{i}' for i in range(BITS)) + f', gen({n}).\n' + '\n'.join(rules) + '\n'


def petri_answer(n):
    # A pulse fires once to come, and once for each bit that it turns.
    firings = sum(1 + min(BITS, (pulse & -pulse).bit_length()) for pulse in range(1, n + 1))
    places = sorted(f"{'o' if n >> i & 1 else 'z'}{i}" for i in range(BITS))
    return firings, lambda line: sorted(re.findall(r'\b[zo]\d+(?=\. )', line.split(' (t, z0')[0] + ' ')) == places


# ground: a tree with N leaves, copied COPIES times.

def tree(low, high):
    if high - low == 1:
        return str(low)
    middle = (low + high) // 2
    return f'n({tree(low, middle)},{tree(middle, high)})'


def ground_text(n):
    return f'dup({tree(0, n)},{COPIES}).\ndup($t,$k) :- ground($t), $k > 0, $j = $k - 1 | out($t), dup($t,$j).\n'


def ground_answer(n):
    def is_right(line):
        line = line.split(' (dup(')[0]
        leaves = [int(number) for number in re.findall(r'(?<!\w)(\d+)\(', line)]
        # The counter of `dup` has come to 0.
        wanted = sorted(list(range(n)) * (COPIES + 1) + [0])
        return line.count('out(') == COPIES and line.count('n(L') == (n - 1) * (COPIES + 1) and sorted(leaves) == wanted

    return COPIES, is_right


# ambient: a traveller with LOAD atoms and a rule that counts goes through N rooms.

def ambient_text(n):
    rooms = ''.join(f'{{door(D{i}), out(D{i + 1}), furniture({i})}}.\n' for i in range(n))
    load = ''.join(f', ware({i})' for i in range(LOAD))
    return (f'{{trav(D0), count(0){load}. arrived, count($c) :- $d = $c + 1 | count($d), seen.}}.\n' + rooms + f'goal(D{n}).\n'
            + '{trav(L), $p, @r}, {door(L), $q} :- {in(H), $q, {trav(H), arrived, $p, @r}}.\n'
            + '{in(H), out(L), $q, {trav(H), seen, $p, @r}} :- {left, $q}, {trav(L), $p, @r}.\n')


def ambient_answer(n):
    def is_right(line):
        traveller = re.search(r'\{[^{}]*trav\((L\d+)\)[^{}]*', line)
        counted = re.search(r'count\((L\d+)\)', traveller[0])[1]
        return (line.count('left') == n + 1 and line.count('furniture(') == n
                and re.search(r'goal\((L\d+)\)', line)[1] == traveller[1]
                and re.search(r'(?<!\w)%d\(%s\)' % (n, counted), traveller[0]) is not None)

    return 3 * n, is_right


# graph: N membranes with numbers and N links between some two of them; each firing draws two membranes together.

def edges(n):
    found, x = [], 12345
    for _ in range(n):
        ends = []
        for _ in range(2):
            x = (x * 1103515245 + 12345) % 2147483648
            ends.append(x // 65536 % n)
        found.append(ends)
    return found


def graph_text(n):
    ends = [[] for _ in range(n)]
    for number, (a, b) in enumerate(edges(n)):
        ends[a].append(number)
        ends[b].append(number)
    nodes = ''.join(f"{{id({i}){''.join(f', +E{number}' for number in ends[i])}}}.\n" for i in range(n))
    return nodes + '{+L, +L, $p} :- {$p}.\n{id($a), +L, $p}, {id($b), +L, $q} :- $a < $b | {id($a), $p, $q}.\n'


def graph_answer(n):
    least = list(range(n))
    for a, b in edges(n):
        low, high = sorted((least[a], least[b]))
        least = [low if x == high else x for x in least]

    def is_right(line):
        line = line.split(" ({'+'")[0]
        found = sorted(int(number) for _, number in re.findall(r'\{id\((L\d+)\), (\d+)\(\1\)\}', line))
        return line.count('{') == len(found) and found == sorted(set(least))

    return n, is_right


# The text, the answer, and the size that is measured.
WORKLOADS = {
    'sum': (sum_text, sum_answer, 2000),
    'append': (append_text, append_answer, 2000),
    'reverse': (reverse_text, reverse_answer, 60),
    'ring': (ring_text, ring_answer, 100),
    'asleep': (asleep_text, asleep_answer, 100),
    'petri': (petri_text, petri_answer, 1000),
    'ground': (ground_text, ground_answer, 100),
    'ambient': (ambient_text, ambient_answer, 100),
    'graph': (graph_text, graph_answer, 200),
}


def firings(name, n):
    return WORKLOADS[name][1](n)[0]


def is_right(name, n, printed):
    """Whether a run of the text to its end printed what it must."""
    fired, of_line = WORKLOADS[name][1](n)
    line, _, end = printed.rstrip('\n').rpartition('\n')
    return end == f'% irreducible after {fired}' and of_line(line)


def main():
    if len(sys.argv) == 1:
        print('\n'.join(WORKLOADS))
        return
    text, _, n = WORKLOADS[sys.argv[1]]
    sys.stdout.write(text(int(sys.argv[2]) if len(sys.argv) > 2 else n))


if __name__ == '__main__':
    main()
