"""A process as a graph for Graphviz: membranes as nested boxes, items as nodes, links as edges with their ports."""

HEAD = '''graph process {
  rankdir=LR; nodesep=0.25; ranksep=0.45; fontname="Helvetica"; bgcolor="white"
  node [shape=box, style="rounded,filled", fillcolor="white", color="#555555", fontname="Helvetica", fontsize=11, height=0.3, width=0.3, margin="0.08,0.04"]
  edge [color="#777777", fontname="Helvetica", fontsize=8, fontcolor="#777777"]'''


def quoted(text):
    """A text as Graphviz has it between quotes."""
    return '"' + text.replace('\\', '\\\\').replace('"', '\\"') + '"'


def ends_of_links(items):
    """Of each link the items and ports at which it stands."""
    ends = {}
    for number, item in enumerate(items):
        for port, link in enumerate(item.links):
            ends.setdefault(link, []).append((number, port))
    return [pair for pair in ends.values() if len(pair) == 2]


def edge_of(items, one, other):
    """An edge from an argument to the item that stands there, each end with its port where the item has more than one."""
    def is_last(end):
        return end[1] == len(items[end[0]].links) - 1

    if is_last(one) and not is_last(other):
        one, other = other, one
    marks = [f'{side}label="{port + 1}"' for side, (item, port) in (('tail', one), ('head', other)) if len(items[item].links) > 1]
    return f'  i{one[0]} -- i{other[0]}' + (f' [{", ".join(marks)}]' if marks else '')


def drawn_membrane(process, number, first, indent):
    """The lines of a membrane: its items, then the membranes in it. `first` has the number of each membrane's first item."""
    membrane, space = process.membranes[number], '  ' * indent
    if number:
        yield f'{space}subgraph cluster{number} {{'
        yield f'{space}  style="rounded,filled"; color="#4a78b0"; fillcolor="#4a78b014"'
        if not membrane.items and not membrane.membranes:
            yield f'{space}  e{number} [style=invis, label=""]'
    for at, item in enumerate(membrane.items, first[number]):
        yield f'{space}  i{at} [label={quoted(item.name)}]'
    for inner in membrane.membranes:
        yield from drawn_membrane(process, inner, first, indent + 1)
    if number:
        yield space + '}'


def dot_of(process):
    """The process as a graph in the language of Graphviz, rules left out."""
    items, first = process.items, [0]
    for membrane in process.membranes:
        first.append(first[-1] + len(membrane.items))
    lines = [HEAD, *drawn_membrane(process, 0, first, 0)]
    lines += [edge_of(items, *pair) for pair in ends_of_links(items)]
    return '\n'.join([*lines, '}']) + '\n'
