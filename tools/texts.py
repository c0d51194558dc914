"""What the tools share that write texts: lines and parts of lines."""

HEAD = '(func 0 2 3 0)\n'
CONST = '(const 5 43)\n'
START = HEAD + CONST
EMPTY = '(region (in) (nodes) (out))\n'
# A selection by an instruction.
SWITCH = '(inst 251)'


def numbers(items):
    """The items, each after a space."""
    return ''.join(f' {item}' for item in items)


def items(form, count):
    """The form so many times, each after a space; `{}` in it is its number."""
    return numbers(form.format(i) for i in range(count))


def region(ins='', nodes='', out=''):
    return f'(region (in{ins}) (nodes{nodes}) (out{out}))\n'


def select(cases, outs='', kind='bool', value='(c 0)', control=0):
    return f'(select {kind} {value} (cases{numbers(cases)}) (outs{outs}) {control})\n'


def loop(body, inits='', repeat='(c 0)', control=0):
    return f'(loop {body} {repeat} (init{inits}) {control})\n'


def way(region, kind, to=(), attrs=0, vals='', ins=None):
    """A ctrl line, with constant 0 for input where its kind needs one and none are given."""
    if ins is None:
        ins = '' if kind in ('return', 'branch', 'unreachable') or kind.startswith('(exit') else ' (c 0)'
    return f'(ctrl {region} {attrs} {kind} (ins{ins}) (to{numbers(to)}) (vals{vals}))\n'


# Region 1 returns.
RETURN = way(1, 'return')


def long_list(held='', regions='', nodes='', ctrls=''):
    """120 loops with four inputs each and a block of 512 ops, whose list has over 16,384 words. To region 0's nodes, 0 to 120, come those `held`; to
    regions, 0 to 120, and to nodes those given, and then ctrl lines."""
    body = region(ins=items('(0 4)', 4), out=items('(c 0)', 4))
    loops = ''.join(loop(i, items('(c 0)', 4)) for i in range(1, 121))
    ops = '(op 0 0 (inst 1 (0 5 0)))\n' * 250 + '(op 0 0 (inst 1))\n' * 262
    lines = region(nodes=items('{}', 121) + held) + body * 120 + regions
    return START + lines + loops + f"(block{items('{}', 512)})\n" + nodes + ops + ctrls
