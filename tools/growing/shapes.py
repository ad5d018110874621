"""The shapes whose growth is measured: each makes a text of a size, and says how it is run."""
import dataclasses
import random
import typing

COUNT = 'a({}). a($x):-$x>0,$y=$x-1|a($y).'
WRAP = 'k({}). k($x),{{$p}}:-$x>0,$y=$x-1|k($y),{{{{$p}}}}.'


@dataclasses.dataclass
class Shape:
    """What is measured, at sizes from `size` on. Where the strategy, the program itself or a limit asks for more than steps in proportion
    to the size, `asked` names what does, and the steps may grow as this `power` of it."""
    name: str
    size: int
    text: typing.Callable[[int], str]
    words: typing.Callable[[int], list] = lambda n: []
    command: str = 'run'
    second: typing.Callable = None
    asked: str = ''
    power: int = 1


def clauses(parts):
    return '. '.join(parts) + '. '


def each(form, n):
    return clauses(form.format(i) for i in range(n))


def items(form, n):
    return ','.join(form.format(i) for i in range(n))


def budget(n):
    return ['--budget', str(n)]


def connectors(order):
    """A chain of connectors from `a` to `b`, in an order."""
    return lambda n: 'a(X0). b(X%d). ' % n + clauses('X%d=X%d' % (i, i + 1) for i in order(n))


def shuffled(n):
    numbers = list(range(n))
    random.Random(1).shuffle(numbers)
    return numbers


def reversed_bits(n):
    width = max(n - 1, 1).bit_length()
    return sorted(range(n), key=lambda i: int(format(i, '0%db' % width)[::-1], 2))


def listed(n):
    return 'l(X0). ' + clauses("'.'(%d,X%d,X%d)" % (i, i + 1, i) for i in range(n)) + " '[]'(X%d)." % n


def pairs(n):
    """Linked pairs, no two of which are joined."""
    return ','.join('a(X%d),b(X%d)' % (i, i) for i in range(n))


def ring(form, n):
    return clauses(form.format(i, (i + 1) % n) for i in range(n))


def hubs(n):
    ports = lambda i: ','.join('X%d_%d' % (i, k) for k in range(250))
    return clauses('f(%s). g(%s)' % (ports(i), ports(i)) for i in range(n))


def wide(n):
    return clauses('n%d(%s)' % (i, ','.join('X%d_%d' % (i, k // 2) for k in range(100))) for i in range(n))


def linked(name, count):
    return ','.join('%s(X%d,X%d)' % (name, k, (k + 1) % count) for k in range(count))


def merging(first, part, body):
    return lambda n: '{%s}.' % first + each('{{x,%s}}' % part, n) + '{acc,$p},{x,$q}:-{acc,%s}.' % body


def deep_hub(n):
    """A hub with n links into n walls, which fires 50 times."""
    hub = 'h(%s)' % items('X{}', n)
    return ('%s. {%s}. ' % (hub, items('x(X{})', n)) + WRAP.format(n)
            + 'k($x),%s:-$x=<0,$x>-50,$y=$x-1|k($y),%s.' % (hub, hub))


def deep_counter(n):
    return ('{%s}. ' % COUNT.format(n)
            + 'k(%d). k($x),{$p,@r}:-$x>0,$y=$x-1|k($y),{{$p,@r}}.' % n)


def arities(n):
    return clauses('p(%s)' % ','.join('X%d_%d' % (k, i // 2) for i in range(2 * k)) for k in range(1, 60)) + COUNT.format(n)


def copies(n):
    """A membrane with 8 n atoms, of which a firing makes n copies."""
    return '{%s}. {$p[]}:-{%s}.' % (items('a', 8 * n), ','.join(['$p[]'] * n))


def sorting(n):
    return ('l(X0). ' + clauses("'.'(%d,X%d,X%d)" % (n - i, i + 1, i) for i in range(n)) + " '[]'(X%d)." % n
            + "'.'($x,Y,X),'.'($y,Z,Y):-$x>$y|'.'($y,W,X),'.'($x,Z,W).")


def first_line(program, text):
    """The line of the first process."""
    return program(['run', '--budget', '0'], text).split('\n')[0] + '\n'


def end_of(line):
    return lambda program, text, n: first_line(program, text) + line


def spoiled(program, text, n):
    """The first two lines of a trace; the last item of the second one is another one."""
    first, second = program(['run', '--trace', '--budget', '1'], text).split('\n')[:2]
    return first + '\n' + second[:-len('b)}.')] + 'c)}.\n'


def spoiled_late(program, text, n):
    """The first line of a trace twice; the last item of the second one is another one."""
    first = program(['run', '--trace', '--budget', '0'], text).split('\n')[0]
    return first + '\n' + first[:-len('b)}.')] + 'c)}.\n'


def trace(*words):
    return lambda program, text, n: program(['run', '--trace', *words], text)


def script(form):
    return lambda program, text, n: form.format(n)


def listing(program, text, n):
    return program(['compile'], text)


def telling_apart(program, text, n):
    """The listing, with NEQATOM of the same two atoms so many times more."""
    return listing(program, text, n).replace('  COMMIT', '  NEQATOM A1 A0\n' * n + '  COMMIT', 1)


def paired(n):
    """A rule that makes pairs of atoms with 255 links between the two."""
    links = [','.join(f'L{i}_{j}' for j in range(255)) for i in range(n)]
    return 'a. a:-' + ','.join(f'p{i}({each}),q{i}({each})' for i, each in enumerate(links)) + '.'


LOADED = [
    Shape('names in one membrane', 2000, lambda n: each('n{}', n)),
    Shape('a name in each membrane', 1000, lambda n: each('{{n{}}}', n)),
    Shape('names with a front of 200 bytes', 500, lambda n: each('x' * 200 + '{}', n)),
    Shape('integers', 2000, lambda n: each('{}', n)),
    Shape('integers of many bits', 2000, lambda n: clauses(str(i * 0x9E3779B97F4A7C15 % 2**63) for i in range(n))),
    Shape('integers at names', 1500, lambda n: each('p({})', n)),
    Shape('rules in the root', 800, lambda n: each('a{}:-b', n)),
    Shape('rules in one membrane', 800, lambda n: '{%s}.' % each('a{}:-b', n)),
    Shape('a rule in each membrane', 500, lambda n: each('{{a:-b}}', n)),
    Shape('connectors forwards', 2000, connectors(range)),
    Shape('connectors backwards', 2000, connectors(lambda n: range(n - 1, -1, -1))),
    Shape('connectors at random', 2000, connectors(shuffled)),
    Shape('connectors even, then odd', 2000, connectors(lambda n: [*range(0, n, 2), *range(1, n, 2)])),
    Shape('connectors by reversed bits', 2000, connectors(reversed_bits)),
    Shape('a loop of connectors', 2000, lambda n: ring('X{}=X{}', n)),
    Shape('a connector in each membrane', 800, lambda n: ring('{{X{}=X{}}}', n)),
    Shape('pairs of hubs of 250 links', 10, hubs),
    Shape('atoms of 100 links', 20, wide),
    Shape('a clause of atoms in a ring', 1500, lambda n: items('a(X{0},Y{0})', n) + ',' + ','.join('b(Y%d,X%d)' % (i, (i + 1) % n) for i in range(n)) + '.'),
    Shape('rules with bodies of 1000 atoms', 5, lambda n: clauses('a%d:-%s' % (i, linked('b', 1000)) for i in range(n))),
    Shape('rules with heads of 64 membranes', 20, lambda n: clauses('%s:-%s' % (items('{{$p{}}}', 64), items('$p{}', 64)) for _ in range(n))),
    Shape('folded: a list', 1500, listed, lambda n: ['--folded']),
    Shape('folded: a chain', 1500, lambda n: 'g(X0). ' + clauses('f(X%d,X%d)' % (i + 1, i) for i in range(n)) + 'z(X%d).' % n, lambda n: ['--folded']),
    Shape('folded: circles of two', 1000, lambda n: clauses('f(A%d,B%d). g(B%d,A%d)' % (i, i, i, i) for i in range(n)), lambda n: ['--folded']),
    Shape('folded: a circle', 1500, lambda n: ring('f(X{},X{})', n), lambda n: ['--folded']),
    Shape('folded: a circle through membranes', 800, lambda n: ring('{{f(X{},X{})}}', n), lambda n: ['--folded']),
    Shape('a list in brackets', 1000, lambda n: 'l([%s]).' % items('{}', n)),
    Shape('rules in rules', 300, lambda n: each('a{0}:-(b{0}:-(c:-d))', n)),
    Shape('refused at its end', 2000, lambda n: each('a{}', n) + 'a(X).'),
    Shape('compiled rules', 800, lambda n: each('a{}:-b', n), command='compile'),
]

FIRED = [
    Shape('a counter', 4000, COUNT.format),
    Shape('growth by an atom', 4000, lambda n: 'a. a:-a,b.', budget),
    Shape('growth by a membrane', 2000, lambda n: 'a. a:-a,{b}.', budget),
    Shape('a rule more in the root', 1000, lambda n: 'a. a:-a,(b:-c).', budget),
    Shape('a membrane more with a rule', 1500, lambda n: 'a. a:-a,{b:-c}.', budget),
    Shape('numbers taken in order', 1500, lambda n: each('p({})', n) + 'c(0). c($x),p($y):-$x=:=$y,$z=$x+1|c($z).'),
    Shape('numbers added up', 1500, lambda n: each('p({})', n) + 'p($x),p($y):-$z=$x+$y|p($z).'),
    Shape('walls round all', 1000, lambda n: '{x}. ' + WRAP.format(n)),
    Shape('walls taken off again', 1000, lambda n: '{x}. ' + WRAP.format(n) + 'k(0),{{$p}}:-k(0),{$p}.'),
    Shape('membranes opened', 800, lambda n: each('{{n{}}}', n) + '{$p}:-$p.'),
    Shape('a counter beside names', 2000, lambda n: each('n{}', n) + COUNT.format(n)),
    Shape('a counter beside sleepers', 800, lambda n: each('{{x,(b:-c)}}', n) + COUNT.format(n)),
    Shape('a counter behind sleepers', 800, lambda n: each('{{x,(b:-c)}}', n) + '{%s}.' % COUNT.format(n)),
    Shape('counting membranes', 100, lambda n: clauses(['{%s}' % COUNT.format(20)] * n)),
    Shape('counting membranes in turn', 100, lambda n: clauses(['{%s}' % COUNT.format(20)] * n), lambda n: ['--order', 'turn']),
    Shape('counting membranes at random', 400, lambda n: clauses(['{%s}' % COUNT.format(20)] * n), lambda n: ['--order', 'seed']),
    Shape('a list copied 20 times', 80, lambda n: 'k(20).' + listed(n) + 'k($n),l($l):-$n>0,ground($l),$m=$n-1|k($m),l($l),c($l).'),
    Shape('a list compared, copied, taken 20 times', 80, lambda n: 'k(20).' + listed(n) + listed(n).replace('X', 'Y').replace('l(', 'm(') + 'k($n),l($a),m($b):-$n>0,ground($a),ground($b),$a=$b,$c=$n-1|k($c),l($a),m($a).'),
    Shape('a rest of names dropped', 2000, lambda n: '{%s}. {$p[]}:-.' % items('n{}', n)),
    Shape('a rest of membranes dropped', 1000, lambda n: '{%s}. {$p[]}:-.' % items('{{b}}', n)),
    Shape('a rest of names copied', 1000, lambda n: '{%s}. {$p[]}:-$p[],$p[].' % items('n{}', n)),
    Shape('a rest of linked membranes copied', 500, lambda n: '{%s}. {$p[]}:-$p[],$p[].' % ','.join('{b(X%d,X%d)}' % (i, (i + 1) % n) for i in range(n))),
    Shape('a rest moved up', 1000, lambda n: '{{%s}}. {{$p}}:-$p.' % items('n{}', n)),
    Shape('a trace of a counter', 800, COUNT.format, lambda n: ['--trace']),
    Shape('tokens that climb', 300, lambda n: clauses(['{t}'] * n) + '{t,$p,@r}:-t,{$p,@r}.'),
    Shape('a head of 64 linked atoms', 20, lambda n: clauses([linked('a', 64).replace('X', 'X%d_' % i) for i in range(n)]) + linked('a', 64) + ':-b.'),
    Shape('a head of 64 atoms, and one that is missing', 1000, lambda n: clauses(['a'] * n) + ','.join(['a'] * 64) + ',b:-c.'),
    Shape('a queue', 2000, lambda n: clauses(['a'] * n) + 'a:-b. b:-c.'),
    Shape('edges contracted', 1000, lambda n: ring('n(X{},X{})', n) + 'n(X,Y),n(Y,Z):-n(X,Z).'),
    Shape('a path eaten from its end', 1500, lambda n: 'z(X0). ' + clauses('p(X%d,X%d)' % (i, i + 1) for i in range(n)) + 'w(X%d). ' % n + 'z(X),p(X,Y):-z(Y).'),
    Shape('rules of a membrane copied 20 times', 100, lambda n: 'k(20). {%s}. ' % each('a{}:-b', n) + 'k($x),{@r}:-$x>0,$y=$x-1|k($y),{@r}.'),
    Shape('many rules in a body', 50, lambda n: 'k(20). k($x):-$x>0,$y=$x-1|k($y),{%s}.' % items('(a{}:-b)', n)),
    Shape('many membranes with a rule in a body', 50, lambda n: 'k(20). k($x):-$x>0,$y=$x-1|k($y),%s.' % items('{{a{}:-b}}', n)),
    Shape('a hub with links into depth', 30, deep_hub),
    Shape('a name with many arities', 1000, arities),
    Shape('a rest that grows by atoms', 500, lambda n: '{acc}. k(%d). k($x),{acc,$p}:-$x>0,$y=$x-1|k($y),{acc,$p,b($x)}.' % n),
    Shape('a rest that grows by membranes', 300, lambda n: '{acc}. k(%d). k($x),{acc,$p}:-$x>0,$y=$x-1|k($y),{acc,{b($x)},$p}.' % n),
    Shape('a merge of names', 200, merging('acc', 'b{}', '$p,$q'), asked='each membrane is tried at each turn', power=2),
    Shape('a merge of one name', 200, merging('acc', 'b', '$p,$q'), asked='each membrane is tried at each turn', power=2),
    Shape('a merge of membranes', 200, merging('acc', '{{{{b}}}}', '$p,$q'), asked='each membrane is tried at each turn', power=2),
    Shape('a merge in front', 200, merging('acc', 'b{}', '$q,$p'), asked='each membrane is tried at each turn', power=2),
    Shape('an integer of the head beside integers', 500, lambda n: each('{}', n) + '-7:-r. ' + COUNT.format(n)),
    Shape('a linked integer of the head beside integers', 500, lambda n: each('p({})', n) + '-7(X),q(X):-r. ' + COUNT.format(n)),
    Shape('items that have nothing to do with what fails', 125, lambda n: items('a', n) + ',b(X),d(X),c(Y),e(Y). a,a,a,a,a,a,a,a,b(X),c(X):-z.'),
    Shape('pairs that have nothing to do with what fails', 125, lambda n: pairs(n) + ',c(Y),d(Y),e(Z),f(Z). ' + pairs(8) + ',c(W),e(W):-z.'),
    Shape('a condition on the first of two atoms', 2000, lambda n: each('p({})', n) + 'p($x),p($y):-$x<0,int($y)|.'),
    Shape('a condition on the first of three atoms', 2000, lambda n: each('p({})', n) + 'p($x),p($y),p($z):-$x<0,int($y),int($z)|.'),
    Shape('a closed rest before a condition', 500, lambda n: '{%s}. {x($n),$p[]}:-$n<0|.' % items('x({})', n)),
    Shape('a ground part before a condition', 2100, lambda n: each('p({})', n) + listed(n).replace('l(', 'g(') + 'p($x),g($l):-$x<0,ground($l)|.'),
]

ASKED = [
    Shape('a firing at a depth', 100, deep_counter, asked='all membranes round a firing wake', power=2),
    Shape('equal integers of two names', 50, lambda n: each('p({})', n) + clauses('q(%d)' % (n - i) for i in range(n)) + 'p($x),q($y):-$x=:=$y|.', asked='integers are compared pair by pair', power=2),
    Shape('an integer at a name', 400, lambda n: each('p({})', n) + 'p(-7):-r. ' + COUNT.format(n), asked='each candidate is tried at each turn', power=2),
    Shape('membranes of a head', 300, lambda n: clauses(['{x}'] * n) + '{g,$p}:-$p. ' + COUNT.format(n), asked='each membrane is tried at each turn', power=2),
    Shape('a rule for each integer', 100, lambda n: each('{}', n) + each('{}:-r', n), asked='rules are asked in their order at each turn', power=2),
    Shape('rules that fail before one', 200, lambda n: each('z{}:-r', n) + COUNT.format(n), asked='rules are asked in their order at each turn', power=2),
    Shape('a sort by neighbours', 10, sorting, asked='each firing looks from the first cell on, and there are as many as inversions', power=3),
    Shape('a trace of what grows', 150, lambda n: 'a. a:-a,b.', lambda n: ['--trace', *budget(n)], asked='each process is printed', power=2),
]

OTHERS = [
    Shape('exec: membranes that count', 50, lambda n: clauses(['{a(3). a($x):-$x>0,$y=$x-1|a($y).}'] * n), command='exec', second=listing),
    Shape('exec: many rules', 300, lambda n: each('a{}:-b', n), command='exec', second=listing),
    Shape('exec: pairs of 255 links', 8, paired, command='exec', second=listing),
    Shape('exec: 128 atoms told apart again', 2000, lambda n: 'b. ' + ','.join(['a'] * 128) + ':-b.', command='exec', second=telling_apart),
    Shape('exec: copies', 50, lambda n: 'k(z). k($x):-ground($x)|' + ','.join(['m($x)'] * n) + '.', command='exec', second=listing, asked='each context of a body, of 1,024 items at most, is compared with the others', power=2),
    Shape('check: a long trace', 200, COUNT.format, command='check', second=trace()),
    Shape('check: membranes in turn, 20 firings', 50, lambda n: clauses(['{a. a:-b.}'] * n), command='check', second=lambda program, text, n: program(['run', '--trace', '--order', 'turn', '--budget', '20'], text)),
    Shape('check: many rules, 5 firings', 200, lambda n: each('a{}:-b', n) + 'c. c:-d. d:-e. e:-f.', command='check', second=trace()),
    Shape('check: a path eaten, 5 firings', 500, lambda n: 'z(X0). ' + clauses('p(X%d,X%d)' % (i, i + 1) for i in range(n)) + 'w(X%d). ' % n + 'z(X),p(X,Y):-z(Y).', command='check', second=trace('--budget', '5')),
    Shape('check: names, 5 firings', 1000, lambda n: each('n{}', n) + COUNT.format(5), command='check', second=trace()),
    Shape('check: rests copied, 5 firings', 500, lambda n: '{a,%s}. a. {a,$p[]},a:-{$p[]},{$p[]}.' % items('n{}', n), command='check', second=trace()),
    Shape('check: items that have nothing to do with what fails', 125, lambda n: items('a', n) + ',b(X),d(X),c(Y),e(Y). a,a,a,a,a,a,a,a,b(X),c(X):-z.', command='check', second=trace()),
    Shape('check: pairs that have nothing to do with what fails', 125, lambda n: pairs(n) + ',c(Y),d(Y),e(Z),f(Z). ' + pairs(8) + ',c(W),e(W):-z.', command='check', second=trace()),
    Shape('check: a condition on the first of two atoms', 2000, lambda n: each('p({})', n) + 'p($x),p($y):-$x<0,int($y)|.', command='check', second=trace()),
    Shape('check: a condition on the last of two atoms', 2000, lambda n: each('p({})', n) + 'p($x),p($y):-$y<0,int($x)|.', command='check', second=trace()),
    Shape('check: a condition on a value that the first of two atoms gives', 2000, lambda n: each('p({})', n) + 'p($x),p($y):-$z=$x+1,$z<0,int($y)|.', command='check', second=trace()),
    Shape('check: a closed rest before a condition', 500, lambda n: '{%s}. {x($n),$p[]}:-$n<0|.' % items('x({})', n), command='check', second=trace()),
    Shape('check: one equal atom too few', 8, lambda n: '%s. %s:-b.' % (','.join(['a'] * (n - 1)), ','.join(['a'] * n)), command='check', second=trace(), asked='each atom of a head is counted among the others', power=2),
    Shape('check: a wrong line', 50, lambda n: clauses(['{a. a:-b.}'] * n), command='check', second=end_of('wrong.\n')),
    Shape('check: a wrong line, and a ground part in each head', 50, lambda n: clauses(['{a(x). a($g):-ground($g)|b($g).}'] * n), command='check', second=end_of('wrong.\n')),
    Shape('check: a wrong line as long as the right ones', 25, lambda n: clauses(['{a. a:-b.}'] * n), command='check', second=spoiled),
    Shape('check: a wrong line that differs at its end', 25, lambda n: clauses(['{a. a:-b.}'] * n), command='check', second=spoiled_late),
    Shape('check: an end behind what copies', 12, copies, command='check', second=end_of('% full after 0\n')),
    Shape('check: a wrong line behind what copies', 12, copies, command='check', second=end_of('wrong.\n')),
    Shape('debug: until so many are there', 300, lambda n: 'a. a:-a,b.', command='debug', second=script('until b/0 >= {}\n')),
    Shape('debug: until so many are there, beside others', 200, lambda n: 'a. a:-a,b,c,c,c.', command='debug', second=script('until b/0 >= {}\n')),
    Shape('debug: until none is there', 500, lambda n: clauses(['a'] * n) + 'a:-.', command='debug', second=script('until a/0 =:= 0\n')),
    Shape('debug: until few are there', 500, lambda n: clauses(['a'] * n) + 'a:-.', command='debug', second=script('until a/0 < 5\n')),
    Shape('debug: back, 5 times', 500, COUNT.format, command='debug', second=lambda program, text, n: 'step %d\n' % n + 'back 1\n' * 5),
    Shape('bound: rules and weights', 700, lambda n: each('a{}:-b{}'.replace('b{}', 'b'), n), command='bound', second=lambda program, text, n: ''.join('a%d/0 1\n' % i for i in range(n)), asked='each of the lines, 65,536 bytes at most, is compared with those before it', power=2),
]

SHAPES = LOADED + FIRED + ASKED + OTHERS
