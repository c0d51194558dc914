//! The well-known names of `spec.rs`, and their numbers, which the Rust reads from the SPIR-V
//! grammar (a file that docs/src lacks).

#[derive(Copy, Clone, Debug, PartialEq, Eq, PartialOrd, Ord, Hash)]
pub struct Opcode(pub u16);

/// Eight bits in the Rust, which counts the grammar's kinds; document 01's kinds have sixteen.
#[derive(Copy, Clone, Debug, PartialEq, Eq, PartialOrd, Ord, Hash)]
pub struct OperandKind(pub u16);

pub struct Spec {
    pub well_known: WellKnown,
}

impl Spec {
    pub fn get() -> &'static Self {
        static SPEC: std::sync::OnceLock<Spec> = std::sync::OnceLock::new();
        SPEC.get_or_init(|| Spec {
            well_known: WellKnown::lookup_with(PerWellKnownGroup {
                opcode,
                operand_kind,
                addressing_model: unused,
                storage_class: unused,
                decoration: unused,
                linkage_type: unused,
            }),
        })
    }
}

/// Document 01's table; `OpTypeFunction` is made while lifting but never listed. No other
/// opcode is asked for, and the number that the others get is over the table's.
fn opcode(name: &str) -> Opcode {
    Opcode(match name {
        "OpExtInst" => 12,
        "OpTypeFunction" => 33,
        "OpConstantTrue" => 41,
        "OpFunction" => 54,
        "OpFunctionParameter" => 55,
        "OpFunctionEnd" => 56,
        "OpFunctionCall" => 57,
        "OpPhi" => 245,
        "OpLoopMerge" => 246,
        "OpSelectionMerge" => 247,
        "OpLabel" => 248,
        "OpBranch" => 249,
        "OpBranchConditional" => 250,
        "OpReturn" => 253,
        "OpReturnValue" => 254,
        "OpUnreachable" => 255,
        _ => u16::MAX,
    })
}

/// Document 01's numbers of the four operand kinds that lifting makes.
fn operand_kind(name: &str) -> OperandKind {
    OperandKind(match name {
        "FunctionControl" => 1,
        "SelectionControl" => 2,
        "LoopControl" => 3,
        "LiteralExtInstInteger" => 4,
        _ => u16::MAX,
    })
}

fn unused(_: &str) -> u32 {
    u32::MAX
}

include!(concat!(env!("OUT_DIR"), "/spec.rs"));
