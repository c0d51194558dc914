//! Inputs on both sides of each limit, and lists that no limit bounds.

use crate::print::{Case, ctrl, func, inst, region};
use refer::HIGHEST_ID as H;
use refer::read::*;
use refer::refuse::HIGHEST_CONTROL;

const C: Value = Value::Const(0);
const D: Decl = Decl { attrs: 0, ty: 2 };

fn case(func: Func) -> String {
    Case { first: func.highest_id() + 1, func }.to_string()
}

fn with_first(first: u64, func: Func) -> String {
    let text = Case { first: 0, func }.to_string();
    text.replacen("(first 0)", &format!("(first {first})"), 1)
}

fn op(operands: usize) -> Op {
    Op { attrs: 0, ty: 0, kind: OpKind::Inst(inst(1)), operands: vec![C; operands] }
}

fn blocks(count: u32) -> Func {
    let numbers: Vec<u32> = (0..count).collect();
    let mut func = func();
    func.regions.push(region(&numbers));
    func.nodes.extend(numbers.iter().map(|_| Node::Block { ops: vec![] }));
    func
}

/// An imported function with so many parameters.
fn imported(params: usize) -> Func {
    Func { imported: true, params: vec![D; params], ..func() }
}

/// One block of ops.
fn ops(list: Vec<Op>) -> Func {
    let mut func = blocks(1);
    func.nodes[0] = Node::Block { ops: (0..list.len() as u32).collect() };
    func.ops = list;
    func
}

/// A select by instruction with so many cases and outs.
fn select(cases: u32, outs: usize) -> Func {
    let mut func = blocks(1);
    for _ in 0..cases {
        func.regions.push(Region { outputs: vec![C; outs], ..region(&[]) });
    }
    func.nodes[0] = Node::Select {
        kind: Selection::Inst(inst(251)),
        scrutinee: C,
        cases: (1..=cases).collect(),
        outs: vec![D; outs],
        control: 0,
    };
    func
}

/// Loops in each other, each with so many inputs, the innermost with a block of ops.
fn loops(depth: u32, inputs: usize, list: Vec<Op>) -> Func {
    let mut func = func();
    for i in 0..=depth {
        let count = if i == 0 { 0 } else { inputs };
        let nodes = if i < depth { vec![i] } else { vec![] };
        func.regions.push(Region {
            inputs: vec![D; count],
            nodes,
            outputs: (0..count as u32).map(|k| Value::Input(i, (k + 1) % count as u32)).collect(),
        });
        if i < depth {
            let inits = vec![C; inputs];
            func.nodes.push(Node::Loop { body: i + 1, repeat: C, inits, control: 0 });
        }
    }
    if !list.is_empty() {
        func.regions[depth as usize].nodes.push(depth);
        func.nodes.push(Node::Block { ops: (0..list.len() as u32).collect() });
        func.ops = list;
    }
    func
}

/// Roots in a row, each with so many ops and a way to the next, and maybe to the one after.
fn row(roots: u32, ops_each: u32, two: bool) -> Func {
    let mut func = func();
    for r in 0..roots {
        func.regions.push(region(&[r]));
        func.nodes.push(Node::Block { ops: (r * ops_each..(r + 1) * ops_each).collect() });
        func.ops.extend((0..ops_each).map(|_| Op { ty: 4, ..op(1) }));
        func.ctrls.push(if r + 1 == roots {
            ctrl(r, CtrlKind::Return, &[])
        } else if two && r + 2 < roots {
            let kind = CtrlKind::Select(Selection::Bool);
            Ctrl { inputs: vec![C], ..ctrl(r, kind, &[r + 2, r + 1]) }
        } else {
            ctrl(r, CtrlKind::Branch, &[r + 1])
        });
    }
    func
}

/// A selection with so many targets, all of them region 1 with so many inputs.
fn targets(count: usize, inputs: usize) -> Func {
    let mut func = blocks(0);
    func.regions.push(Region { inputs: vec![D; inputs], ..region(&[]) });
    func.ctrls = vec![
        Ctrl {
            inputs: vec![C],
            values: vec![(1, vec![C; inputs])],
            ..ctrl(0, CtrlKind::Select(Selection::Inst(inst(251))), &vec![1; count])
        },
        ctrl(1, CtrlKind::Return, &[]),
    ];
    func
}

/// A text of exactly so many bytes.
fn bytes(count: usize) -> String {
    let mut list: Vec<Op> = (0..512).map(|_| op(3)).collect();
    for op in &mut list[..500] {
        op.kind = OpKind::Inst(Inst { opcode: 1, imms: vec![[0, 5, 0]] });
    }
    let mut func = ops(list);
    func.consts = (0..256).map(|i| (1000 + i, 43)).collect();
    let head = "(first 1256)\n".len();
    let length = case(func.clone()).len() - head;
    let mut missing = count - length;
    for op in &mut func.ops {
        // Attributes of up to ten digits, one of which is there.
        let more = missing.min(9);
        op.attrs = 10u32.pow(more as u32) * u32::from(more > 0);
        missing -= more;
    }
    let input = case(func);
    assert!(input.len() == head + count);
    input
}

/// A list of exactly so many words: loops, phis, immediates, and operands to fill up.
fn words(count: usize) -> String {
    let make = |operands: usize| {
        let mut list: Vec<Op> = (0..200).map(|_| op(0)).collect();
        list[0].kind = OpKind::Inst(Inst { opcode: 1, imms: vec![[0, 5, 0]; 500] });
        for i in 0..operands {
            list[i % 200].operands.push(C);
        }
        loops(126, 4, list)
    };
    let words = |func: &Func| -> usize {
        let (lines, _) = refer::list::list(func, 10);
        lines.iter().map(|line| 6 + 3 * line.imms.len() + line.ids.len()).sum()
    };
    let missing = count - words(&make(0));
    let func = make(missing);
    assert!(words(&func) == count);
    case(func)
}

pub fn limits() -> Vec<String> {
    let mut all = vec![];
    for cases in [126, 127, 128] {
        all.push(case(select(cases, 0)));
    }
    for number in [HIGHEST_CONTROL, HIGHEST_CONTROL + 1, u32::MAX] {
        for mut func in [select(2, 1), loops(127, 1, vec![])] {
            let numbers = func.nodes.iter_mut().filter_map(Node::control_mut);
            numbers.for_each(|control| *control = number);
            all.push(case(func));
        }
    }
    for count in [127, 128, 129] {
        all.push(case(blocks(count)));
        all.push(case(row(count, 1, false)));
        all.push(case(row(count, 1, true)));
    }
    for depth in [126, 127, 128] {
        all.push(case(loops(depth, 0, vec![])));
        all.push(case(loops(depth, 3, vec![])));
    }
    for count in [511, 512, 513] {
        all.push(case(ops((0..count).map(|_| op(0)).collect())));
        all.push(case(ops((0..count).map(|_| Op { ty: 4, ..op(2) }).collect())));
        all.push(case(select(1, count)));
        all.push(case(loops(1, count, vec![])));
        all.push(case(targets(count, 0)));
        all.push(case(targets(count, 2)));
        let imms = vec![[0, 5, 7]; count];
        let kind = OpKind::Inst(Inst { opcode: 1, imms });
        all.push(case(ops(vec![Op { kind, ..op(0) }])));
    }
    for count in [255, 256, 257] {
        let mut func = blocks(1);
        func.consts = (0..count).map(|i| (100 + i, 43)).collect();
        all.push(case(func));
    }
    for count in [63, 64, 65] {
        let mut func = blocks(1);
        func.params = vec![D; count];
        func.regions[0].inputs = vec![D; count];
        all.push(case(func));
        let mut func = blocks(0);
        func.params = vec![D; count];
        func.regions.clear();
        func.imported = true;
        all.push(case(func));
    }
    for count in [2047, 2048, 2049] {
        all.push(case(ops(vec![op(count)])));
        let mut list: Vec<Op> = (0..511).map(|_| op(4)).collect();
        list.push(op(count - 4 * 511));
        all.push(case(ops(list)));
    }
    all.push(case(row(120, 4, false)));
    all.push(case(row(120, 4, true)));
    for count in [32_767, 32_768, 32_769] {
        all.push(bytes(count));
    }
    for count in [16_383, 16_384, 16_385, 16_600] {
        all.push(words(count));
    }
    for first in [0, 4, 5, 6, H - 1, H, H + 1, H + 2, (1 << 32) - 1, 1 << 32] {
        all.push(with_first(first, blocks(0)));
        all.push(with_first(first, imported(0)));
    }
    // The last id given is the highest, and one more; parameters, phis and op results take some too.
    let texts =
        [imported(2), loops(127, 1, vec![]), row(128, 4, true), select(3, 2), targets(2, 2)];
    for func in texts {
        let (_, next) = refer::list::list(&func, 1);
        let first = H + 1 - (next - 1);
        all.push(with_first(first, func.clone()));
        all.push(with_first(first + 1, func));
    }
    all.extend(unbounded());
    all
}

/// Lists that refusal 3 does not bound, each as it is, with a bad reference and with a bad form
/// at its end.
fn unbounded() -> Vec<String> {
    let head = "(first 10)\n(func 0 2 3 0)\n(const 5 43)\n";
    let ends = |start: &str, item: &str, count: usize, wrong: &str, end: &str| {
        ["", wrong, " x"].map(|last| format!("{head}{start}{}{last}{end}", item.repeat(count)))
    };
    let mut all = vec![];
    all.extend(ends("(region (in) (nodes", " 0", 15_000, " 1", ") (out))\n(block)\n"));
    all.extend(ends(
        "(region (in) (nodes 0) (out))\n(block",
        " 0",
        15_000,
        " 1",
        ")\n(op 0 0 (inst 1))\n",
    ));
    let selects = "(region (in) (nodes 0) (out))\n(region (in) (nodes) (out))\n\
                   (select (inst 251) (c 0) (cases";
    all.extend(ends(selects, " 1", 15_000, " 2", ") (outs) 0)\n"));
    let entries = "(region (in) (nodes) (out))\n(region (in) (nodes) (out))\n\
                   (ctrl 0 0 branch (ins) (to 1) (vals";
    let end = "))\n(ctrl 1 0 return (ins) (to) (vals))\n";
    all.extend(ends(entries, " (1)", 7_900, " (2)", end));
    let body = "(region (in) (nodes) (out))";
    let line = "\n(ctrl 0 0 return (ins) (to) (vals))";
    let wrong = "\n(ctrl 1 0 return (ins) (to) (vals))";
    all.extend(ends(body, line, 880, wrong, "\n"));
    all.extend(ends(body, "\n(block)", 4_000, "\n(block 0)", "\n"));
    all.extend(ends(body, "\n(op 0 0 (inst 1))", 1_700, "\n(op 0 0 (inst 1) (c 1))", "\n"));
    all.extend(ends(
        body,
        "\n(region (in) (nodes) (out))",
        1_100,
        "\n(region (in) (nodes 0) (out))",
        "\n",
    ));
    all
}
