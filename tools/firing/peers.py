#!/usr/bin/env python3
"""The texts of tools/firing/workloads.py as a user of Maude and one of CHR in SWI-Prolog would write them, and what shows that a run was right.

    tools/firing/peers.py maude|chr NAME [N]

Each text prints what its run came to, in a line of its own, so that `is_right` can tell. Maude tells the seconds of its rewriting itself;
a text of CHR prints those between its last constraint but one and its end as `seconds S`, but where constraints react as they come: there it is
the whole.
"""
import re
import sys

import workloads

# Multisets with an operator for a membrane, and what the workloads have in common.
CONF = '''  protecting NAT .
  sort Conf .
  op none : -> Conf .
  op __ : Conf Conf -> Conf [ctor assoc comm id: none] .
  op <_> : Conf -> Conf [ctor] .
  op init : Nat -> Conf .
  vars A B C K L N X Y : Nat . vars P Q : Conf .
'''


def maude(name, body, start):
    return f'mod {name.upper()} is\n{CONF}{body}endm\nset show command off .\nrew {start} .\nquit\n'


def operators(names, kind='Conf', arguments=''):
    return f'  ops {" ".join(names)} : {arguments}-> {kind} [ctor] .\n'


def sum_maude(n):
    return maude('sum', '''  op p : Nat -> Conf [ctor] .
  eq init(0) = none . eq init(s X) = p(s X) init(X) .
  rl p(X) p(Y) => p(X + Y) .
''', f'init({n})')


def reverse_maude(n):
    # A function: equations are what a user takes for it.
    return maude('reverse', '''  sort List . op nil : -> List [ctor] . op _:_ : Nat List -> List [ctor gather (e E)] .
  vars T U : List . op append : List List -> List . op reverse : List -> List . op down : Nat -> List .
  eq down(0) = nil . eq down(s X) = s X : down(X) .
  eq append(nil, U) = U . eq append(A : T, U) = A : append(T, U) .
  eq reverse(nil) = nil . eq reverse(A : T) = append(reverse(T), A : nil) .
''', f'reverse(down({n}))')


def petri_maude(n):
    bits = range(workloads.BITS)
    body = operators(['t', *(f'{letter}{i}' for i in bits for letter in 'zo'), *(f'c{i}' for i in range(1, workloads.BITS + 1))])
    body += '  op gen : Nat -> Conf [ctor] .\n  rl t z0 => o0 . rl t o0 => z0 c1 .\n'
    body += ''.join(f'  rl c{i} z{i} => o{i} . rl c{i} o{i} => z{i} c{i + 1} .\n' for i in range(1, workloads.BITS))
    body += '  rl gen(s N) => gen(N) t .\n'
    return maude('petri', body, ' '.join(f'z{i}' for i in bits) + f' gen({n})')


def asleep_maude(n):
    return maude('asleep', operators(['go', 'done']) + '''  ops idle c : Nat -> Conf [ctor] .
  eq init(0) = none . eq init(s X) = < idle(X) > init(X) .
  rl go idle(X) => done .
  rl c(s N) => c(N) .
''', f'init({n}) < c({workloads.WORK}) >')


def ring_maude(n):
    return maude('ring', operators(['got', 'pass', 'stop']) + f'''  ops st in out left : Nat -> Conf [ctor] .
  eq init(0) = none . eq init(s X) = < st(X) in(X) out(s X rem {n}) left({workloads.LAPS}) > init(X) .
  rl got left(s C) => left(C) pass .
  rl got left(0) => stop left(0) .
  rl < pass out(L) P > < in(L) Q > => < out(L) P > < in(L) got Q > .
''', f'init({n - 1}) < st({n - 1}) in({n - 1}) out(0) left({workloads.LAPS}) got >')


def ground_maude(n):
    return maude('ground', '''  sort Tree . op leaf : Nat -> Tree [ctor] . op n : Tree Tree -> Tree [ctor] . op tree : Nat Nat -> Tree .
  var T : Tree . op out : Tree -> Conf [ctor] . op dup : Tree Nat -> Conf [ctor] .
  eq tree(A, s 0) = leaf(A) .
  ceq tree(A, s s N) = n(tree(A, K), tree(A + K, sd(s s N, K))) if K := s s N quo 2 .
  rl dup(T, s K) => out(T) dup(T, K) .
''', f'dup(tree(0, {n}), {workloads.COPIES})')


def ambient_maude(n):
    load = ' '.join(f'ware({i})' for i in range(workloads.LOAD))
    return maude('ambient', operators(['arrived', 'seen', 'gone']) + '''  sort Name . op d : Nat -> Name [ctor] . op h : -> Name [ctor] . var M : Name .
  ops trav door in out goal : Name -> Conf [ctor] . ops ware furniture count : Nat -> Conf [ctor] .
  eq init(0) = none . eq init(s X) = < door(d(X)) out(d(s X)) furniture(X) > init(X) .
  rl arrived count(C) => count(s C) seen .
  rl < trav(M) P > < door(M) Q > => < in(h) Q < trav(h) arrived P > > .
  rl < in(h) out(M) Q < trav(h) seen P > > => < gone Q > < trav(M) P > .
''', f'init({n}) < trav(d(0)) count(0) {load} > goal(d({n}))')


def graph_maude(n):
    ends = [[] for _ in range(n)]
    for number, (a, b) in enumerate(workloads.edges(n)):
        ends[a].append(number)
        ends[b].append(number)
    nodes = ','.join(f'< id({i}){"".join(f" e({number})" for number in ends[i])} >' for i in range(n))
    return maude('graph', '''  ops id e : Nat -> Conf [ctor] .
  rl < e(L) e(L) P > => < P > .
  crl < id(A) e(L) P > < id(B) e(L) Q > => < id(A) P Q > if A < B .
''', f'__({nodes})')


def chr_text(constraints, rules, before, last, shows):
    """Constraints, rules, the goals before those that are timed, those, and what prints the answer."""
    return (f':- use_module(library(chr)).\n:- chr_constraint {constraints}, show.\n{rules}{shows}show <=> true.\n'
            f'main :- {before}, statistics(cputime, S), {last}, statistics(cputime, E), show, D is E - S, format("seconds ~w~n", [D]), halt.\n'
            ':- initialization(main).\n')


def sum_chr(n):
    return chr_text('p(+int)', 'p(X), p(Y) <=> Z is X + Y, p(Z).\n', f'numlist(1, {n}, L)', 'maplist(p, L)',
                    'show, p(X) <=> format("p(~w)~n", [X]), show.\n')


def reverse_chr(n):
    rules = '''rev(L, R), nil(L) <=> nil(R).
rev(L, R), cons(H, T, L) <=> rev(T, S), app(S, U, R), cons(H, N, U), nil(N).
app(X, Y, Z), nil(X) <=> Y = Z.
app(L, Y, Z), cons(A, X, L) <=> cons(A, W, Z), app(X, Y, W).
ans(L) \\ show, cons(A, T, L) <=> format("~w ", [A]), ans(T), show.
'''
    make = f'numlist(1, {n}, Ns), foldl(cell, Ns, First, End), nil(End), ans(R)'
    return 'cell(A, L, T) :- cons(A, T, L).\n' + chr_text('rev(?any, ?any), app(?any, ?any, ?any), cons(+int, ?any, ?any), nil(?any), ans(?any)', rules, make, 'rev(First, R)', '')


def petri_chr(n):
    bits = range(workloads.BITS)
    names = ['t', *(f'{letter}{i}' for i in bits for letter in 'zo'), *(f'c{i}' for i in range(1, workloads.BITS + 1))]
    rules = 't, z0 <=> o0.\nt, o0 <=> z0, c1.\n'
    rules += ''.join(f'c{i}, z{i} <=> o{i}.\nc{i}, o{i} <=> z{i}, c{i + 1}.\n' for i in range(1, workloads.BITS))
    rules += 'gen(N) <=> N > 0 | M is N - 1, t, gen(M).\n'
    shows = ''.join(f'show, {letter}{i} <=> write({letter}{i}), nl, show.\n' for i in bits for letter in 'zo')
    return chr_text(', '.join(names) + ', gen(+int)', rules, ', '.join(f'z{i}' for i in bits), f'gen({n})', shows)


def asleep_chr(n):
    rules = 'room(I) :- idle(I, I).\ngo(M), idle(M, X) <=> integer(X) | done(M).\nc(M, N) <=> N > 0 | K is N - 1, c(M, K).\n'
    return chr_text('go(+int), idle(+int, +int), done(+int), c(+int, +int)', rules, f'N is {n} - 1, numlist(0, N, L), maplist(room, L)',
                    f'c({n}, {workloads.WORK})', 'show, c(_, N) <=> format("c(~w)~n", [N]), show.\n')


def ring_chr(n):
    rules = f'station(I) :- J is (I + 1) mod {n}, in(I, I), out(I, J), left(I, {workloads.LAPS}).\n' + '''got(M), left(M, C) <=> C > 0 | D is C - 1, left(M, D), pass(M).
got(M), left(M, 0) <=> stop(M), left(M, 0).
out(M, L), in(K, L) \\ pass(M) <=> got(K).
'''
    make = f'N is {n} - 1, numlist(0, N, L), maplist(station, L)'
    return chr_text('got(+int), pass(+int), stop(+int), in(+int, +int), out(+int, +int), left(+int, +int)', rules, make, 'got(0)', 'show, stop(M) <=> format("stop ~w~n", [M]), show.\n')


def ground_chr(n):
    rules = 'copies(T, K) <=> ground(T), K > 0 | J is K - 1, out(T), copies(T, J).\n'
    return (f'tree(A, 1, leaf(A)) :- !.\ntree(A, N, n(S, T)) :- K is N // 2, tree(A, K, S), B is A + K, M is N - K, tree(B, M, T).\n'
            + chr_text('copies(?any, +int), out(?any)', rules, f'tree(0, {n}, T)', f'copies(T, {workloads.COPIES})', 'show, out(_) <=> write(out), nl, show.\n'))


def ambient_chr(n):
    rules = '''room(I) :- J is I - 1, door(I, J), out(I, I), furniture(I, J).
arrived(M), count(M, C) <=> D is C + 1, count(M, D), seen(M).
trav(M, L), door(K, L) <=> in(K, h), trav(M, h), inside(M, K), arrived(M).
in(K, h), out(K, L), inside(M, K), trav(M, h), seen(M) <=> gone(K), trav(M, L).
'''
    load = ''.join(f', ware(0, {i})' for i in range(workloads.LOAD))
    make = f'numlist(1, {n}, L), maplist(room, L), count(0, 0){load}'
    return chr_text('arrived(+int), seen(+int), count(+int, +int), trav(+int, ?any), door(+int, ?any), in(+int, ?any), out(+int, ?any), inside(+int, +int), gone(+int), ware(+int, +int), furniture(+int, +int)',
                    rules, make, 'trav(0, 0)', 'show, count(_, N) <=> format("count(~w)~n", [N]), show.\n')


def graph_chr(n):
    rules = '''node(Ms, I) :- J is I + 1, arg(J, Ms, M), id(M, I).
e(M, L), e(M, L) <=> true.
id(M, A), e(M, L), e(K, L), id(K, B) <=> A < B | M = K, id(M, A).
'''
    number_of = f'functor(Ms, m, {n}), N is {n} - 1, numlist(0, N, L), maplist(node(Ms), L)'
    links = ', '.join(f'arg({a + 1}, Ms, A{number}), arg({b + 1}, Ms, B{number}), e(A{number}, {number}), e(B{number}, {number})' for number, (a, b) in enumerate(workloads.edges(n)))
    return chr_text('id(?any, +int), e(?any, +int)', rules, number_of, links, 'show, id(_, A) <=> format("id(~w)~n", [A]), show.\n')


def components(n):
    least = list(range(n))
    for a, b in workloads.edges(n):
        low, high = sorted((least[a], least[b]))
        least = [low if x == high else x for x in least]
    return sorted(set(least))


def is_right(name, n, printed):
    """Whether a run of either peer came to what it must."""
    printed = printed.split('seconds')[0]
    if name == 'sum':
        return f'p({n * (n + 1) // 2})' in printed
    if name == 'reverse':
        # Maude turns a list that goes down, CHR one that goes up.
        found = [int(number) for number in re.findall(r'\d+', printed.split('List:')[-1])]
        return found in (list(range(1, n + 1)), list(range(n, 0, -1)))
    if name == 'petri':
        return sorted(re.findall(r'\b[zo]\d+\b', printed)) == sorted(f"{'o' if n >> i & 1 else 'z'}{i}" for i in range(workloads.BITS))
    if name == 'asleep':
        return 'c(0)' in printed
    if name == 'ring':
        return printed.count('stop') == 1
    if name == 'ground':
        return printed.count('out') == workloads.COPIES
    if name == 'ambient':
        return f'count({n})' in printed
    return sorted(int(number) for number in re.findall(r'id\((\d+)\)', printed)) == components(n)


TEXTS = {name: (globals()[f'{name}_maude'], globals()[f'{name}_chr']) for name in workloads.WORKLOADS if f'{name}_maude' in globals()}


def main():
    peer, name = sys.argv[1:3]
    sys.stdout.write(TEXTS[name][peer == 'chr'](int(sys.argv[3]) if len(sys.argv) > 3 else workloads.WORKLOADS[name][2]))


if __name__ == '__main__':
    main()
