//! Document 01, 'The text', with the control numbers of selects and loops (document 02, W4): the
//! forms as data, and the reading of them.

#[derive(Clone, Copy, Debug, PartialEq, Eq, Hash)]
pub enum Value {
    Const(u32),
    Input(u32, u32),
    Out(u32, u32),
    Result(u32),
}

#[derive(Clone, Debug, PartialEq, Eq)]
pub struct Inst {
    pub opcode: u32,
    /// Kind, operand kind, word.
    pub imms: Vec<[u32; 3]>,
}

/// `(A T)`: attributes and a type id.
#[derive(Clone, Copy, Debug)]
pub struct Decl {
    pub attrs: u32,
    pub ty: u32,
}

#[derive(Clone, Debug)]
pub struct Region {
    pub inputs: Vec<Decl>,
    pub nodes: Vec<u32>,
    pub outputs: Vec<Value>,
}

/// What picks a target: `bool` or an instruction.
#[derive(Clone, Debug)]
pub enum Selection {
    Bool,
    Inst(Inst),
}

#[derive(Clone, Debug)]
pub enum Node {
    Block { ops: Vec<u32> },
    Select { kind: Selection, scrutinee: Value, cases: Vec<u32>, outs: Vec<Decl>, control: u32 },
    Loop { body: u32, repeat: Value, inits: Vec<Value>, control: u32 },
    Exit { inst: Inst, values: Vec<Value> },
}

#[derive(Clone, Debug)]
pub enum OpKind {
    Inst(Inst),
    Call(u32),
    Ext(u32, u32),
}

#[derive(Clone, Debug)]
pub struct Op {
    pub attrs: u32,
    /// 0 where there is no result.
    pub ty: u32,
    pub kind: OpKind,
    pub operands: Vec<Value>,
}

#[derive(Clone, Debug)]
pub enum CtrlKind {
    Unreachable,
    Return,
    Branch,
    Select(Selection),
    Exit(Inst),
}

#[derive(Clone, Debug)]
pub struct Ctrl {
    pub region: u32,
    pub attrs: u32,
    pub kind: CtrlKind,
    pub inputs: Vec<Value>,
    pub targets: Vec<u32>,
    /// The entries: a region and the values for its inputs.
    pub values: Vec<(u32, Vec<Value>)>,
}

#[derive(Clone, Debug)]
pub struct Func {
    pub attrs: u32,
    pub ret: u32,
    pub ty: u32,
    pub control: u32,
    /// Id and opcode.
    pub consts: Vec<(u32, u32)>,
    pub params: Vec<Decl>,
    pub imported: bool,
    pub regions: Vec<Region>,
    pub nodes: Vec<Node>,
    pub ops: Vec<Op>,
    pub ctrls: Vec<Ctrl>,
}

impl Node {
    /// The regions below a node, in turn.
    pub fn children(&self) -> &[u32] {
        match self {
            Node::Select { cases, .. } => cases,
            Node::Loop { body, .. } => std::slice::from_ref(body),
            Node::Block { .. } | Node::Exit { .. } => &[],
        }
    }

    pub fn outs(&self) -> &[Decl] {
        match self {
            Node::Select { outs, .. } => outs,
            _ => &[],
        }
    }

    /// The number for its merge, if it has one (document 02, W4).
    pub fn control(&self) -> Option<u32> {
        match self {
            Node::Select { control, .. } | Node::Loop { control, .. } => Some(*control),
            Node::Block { .. } | Node::Exit { .. } => None,
        }
    }

    /// Where that number stands.
    pub fn control_mut(&mut self) -> Option<&mut u32> {
        match self {
            Node::Select { control, .. } | Node::Loop { control, .. } => Some(control),
            Node::Block { .. } | Node::Exit { .. } => None,
        }
    }
}

/// What is left to read.
pub struct Cursor<'a>(pub &'a [u8]);

impl Cursor<'_> {
    fn take(&mut self, literal: &str) -> Option<()> {
        self.0 = self.0.strip_prefix(literal.as_bytes())?;
        Some(())
    }

    fn at(&self, literal: &str) -> bool {
        self.0.starts_with(literal.as_bytes())
    }

    /// Base ten, no leading zero, 32 bits.
    fn number(&mut self) -> Option<u32> {
        let length = self.0.iter().take_while(|byte| byte.is_ascii_digit()).count();
        let (digits, rest) = self.0.split_at(length);
        if length > 1 && digits[0] == b'0' {
            return None;
        }
        let number = std::str::from_utf8(digits).ok()?.parse().ok()?;
        self.0 = rest;
        Some(number)
    }

    fn spaced_number(&mut self) -> Option<u32> {
        self.take(" ")?;
        self.number()
    }

    /// Items, each after a space, up to the bracket that closes their form.
    fn items<T>(&mut self, item: fn(&mut Self) -> Option<T>) -> Option<Vec<T>> {
        let mut items = vec![];
        while self.at(" ") {
            self.take(" ")?;
            items.push(item(self)?);
        }
        self.take(")")?;
        Some(items)
    }

    fn lines<T>(&mut self, start: &str, line: fn(&mut Self) -> Option<T>) -> Option<Vec<T>> {
        let mut items = vec![];
        while self.at(start) {
            items.push(line(self)?);
            self.take("\n")?;
        }
        Some(items)
    }

    fn value(&mut self) -> Option<Value> {
        let kind = *self.0.get(1)?;
        self.take(std::str::from_utf8(&[b'(', kind]).ok()?)?;
        let first = self.spaced_number()?;
        let value = match kind {
            b'c' => Value::Const(first),
            b'r' => Value::Input(first, self.spaced_number()?),
            b'n' => Value::Out(first, self.spaced_number()?),
            b'd' => Value::Result(first),
            _ => return None,
        };
        self.take(")")?;
        Some(value)
    }

    fn inst(&mut self) -> Option<Inst> {
        self.take("(inst ")?;
        let opcode = self.number()?;
        let imms = self.items(|c| {
            c.take("(")?;
            let imm = [c.number()?, c.spaced_number()?, c.spaced_number()?];
            c.take(")")?;
            Some(imm)
        })?;
        Some(Inst { opcode, imms })
    }

    fn selection(&mut self) -> Option<Selection> {
        if self.at("bool") {
            self.take("bool")?;
            return Some(Selection::Bool);
        }
        Some(Selection::Inst(self.inst()?))
    }

    fn decl(&mut self) -> Option<Decl> {
        self.take("(")?;
        let decl = Decl { attrs: self.number()?, ty: self.spaced_number()? };
        self.take(")")?;
        Some(decl)
    }

    /// `(first N)` and its line's end.
    pub fn first(&mut self) -> Option<u32> {
        self.take("(first ")?;
        let first = self.number()?;
        self.take(")\n")?;
        Some(first)
    }

    pub fn func(mut self) -> Option<Func> {
        let c = &mut self;
        c.take("(func ")?;
        let (attrs, ret) = (c.number()?, c.spaced_number()?);
        let (ty, control) = (c.spaced_number()?, c.spaced_number()?);
        c.take(")\n")?;
        let consts = c.lines("(const ", |c| {
            c.take("(const ")?;
            let line = (c.number()?, c.spaced_number()?);
            c.take(")")?;
            Some(line)
        })?;
        let params = c.lines("(param ", |c| {
            c.take("(param ")?;
            let line = Decl { attrs: c.number()?, ty: c.spaced_number()? };
            c.take(")")?;
            Some(line)
        })?;
        let imported = c.at("(imported)\n");
        let (mut regions, mut nodes, mut ops, mut ctrls) = (vec![], vec![], vec![], vec![]);
        if imported {
            c.take("(imported)\n")?;
        } else {
            regions = c.lines("(region ", Self::region)?;
            while !c.0.is_empty() && !c.at("(op ") && !c.at("(ctrl ") {
                nodes.push(c.node()?);
                c.take("\n")?;
            }
            ops = c.lines("(op ", Self::op)?;
            ctrls = c.lines("(ctrl ", Self::ctrl)?;
            if regions.is_empty() {
                return None;
            }
        }
        c.0.is_empty().then_some(())?;
        Some(Func { attrs, ret, ty, control, consts, params, imported, regions, nodes, ops, ctrls })
    }

    fn region(&mut self) -> Option<Region> {
        self.take("(region (in")?;
        let inputs = self.items(Self::decl)?;
        self.take(" (nodes")?;
        let nodes = self.items(Self::number)?;
        self.take(" (out")?;
        let outputs = self.items(Self::value)?;
        self.take(")")?;
        Some(Region { inputs, nodes, outputs })
    }

    fn node(&mut self) -> Option<Node> {
        if self.at("(block") {
            self.take("(block")?;
            return Some(Node::Block { ops: self.items(Self::number)? });
        }
        if self.at("(select ") {
            self.take("(select ")?;
            let kind = self.selection()?;
            self.take(" ")?;
            let scrutinee = self.value()?;
            self.take(" (cases")?;
            let cases = self.items(Self::number)?;
            self.take(" (outs")?;
            let outs = self.items(Self::decl)?;
            let control = self.spaced_number()?;
            self.take(")")?;
            return Some(Node::Select { kind, scrutinee, cases, outs, control });
        }
        if self.at("(loop ") {
            self.take("(loop ")?;
            let body = self.number()?;
            self.take(" ")?;
            let repeat = self.value()?;
            self.take(" (init")?;
            let inits = self.items(Self::value)?;
            let control = self.spaced_number()?;
            self.take(")")?;
            return Some(Node::Loop { body, repeat, inits, control });
        }
        self.take("(exit ")?;
        Some(Node::Exit { inst: self.inst()?, values: self.items(Self::value)? })
    }

    fn op(&mut self) -> Option<Op> {
        self.take("(op ")?;
        let (attrs, ty) = (self.number()?, self.spaced_number()?);
        self.take(" ")?;
        let kind = if self.at("(call ") {
            self.take("(call ")?;
            let id = self.number()?;
            self.take(")")?;
            OpKind::Call(id)
        } else if self.at("(ext ") {
            self.take("(ext ")?;
            let (id, number) = (self.number()?, self.spaced_number()?);
            self.take(")")?;
            OpKind::Ext(id, number)
        } else {
            OpKind::Inst(self.inst()?)
        };
        Some(Op { attrs, ty, kind, operands: self.items(Self::value)? })
    }

    fn ctrl(&mut self) -> Option<Ctrl> {
        self.take("(ctrl ")?;
        let (region, attrs) = (self.number()?, self.spaced_number()?);
        self.take(" ")?;
        let words = [
            ("unreachable", CtrlKind::Unreachable),
            ("return", CtrlKind::Return),
            ("branch", CtrlKind::Branch),
        ];
        let kind = if let Some((word, kind)) = words.into_iter().find(|(word, _)| self.at(word)) {
            self.take(word)?;
            kind
        } else if self.at("(exit ") {
            self.take("(exit ")?;
            let inst = self.inst()?;
            self.take(")")?;
            CtrlKind::Exit(inst)
        } else {
            CtrlKind::Select(self.selection()?)
        };
        self.take(" (ins")?;
        let inputs = self.items(Self::value)?;
        self.take(" (to")?;
        let targets = self.items(Self::number)?;
        self.take(" (vals")?;
        let values = self.items(|c| {
            c.take("(")?;
            Some((c.number()?, c.items(Self::value)?))
        })?;
        self.take(")")?;
        Some(Ctrl { region, attrs, kind, inputs, targets, values })
    }
}
