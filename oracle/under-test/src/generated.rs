//! Stands in for the bindings that the crate generates from the kernel's headers: what its BTF files take from them,
//! with the numbers of RFC 9669 (classes, sizes) and of the kernel's BTF document (header, INT encoding).

pub use crate::btf_internal_bindings::{bpf_core_relo, bpf_core_relo_kind, btf_ext_header};

pub const BPF_LD: u32 = 0;
pub const BPF_LDX: u32 = 1;
pub const BPF_ST: u32 = 2;
pub const BPF_STX: u32 = 3;
pub const BPF_ALU: u32 = 4;
pub const BPF_JMP: u32 = 5;
pub const BPF_ALU64: u32 = 7;
pub const BPF_W: u32 = 0x00;
pub const BPF_H: u32 = 0x08;
pub const BPF_B: u32 = 0x10;
pub const BPF_DW: u32 = 0x18;
pub const BPF_K: u32 = 0;
pub const BPF_CALL: u32 = 0x80;
pub const BTF_INT_SIGNED: u32 = 1;

#[repr(C)]
#[derive(Debug, Copy, Clone)]
pub struct btf_header {
    pub magic: u16,
    pub version: u8,
    pub flags: u8,
    pub hdr_len: u32,
    pub type_off: u32,
    pub type_len: u32,
    pub str_off: u32,
    pub str_len: u32,
}

#[repr(C)]
#[derive(Debug, Copy, Clone, PartialEq, Eq)]
pub struct bpf_insn {
    pub code: u8,
    /// destination register low, source register high
    regs: u8,
    pub off: i16,
    pub imm: i32,
}

impl bpf_insn {
    pub fn from_bytes(b: [u8; 8]) -> Self {
        Self { code: b[0], regs: b[1], off: i16::from_le_bytes([b[2], b[3]]), imm: i32::from_le_bytes([b[4], b[5], b[6], b[7]]) }
    }

    pub fn to_bytes(self) -> [u8; 8] {
        let (off, imm) = (self.off.to_le_bytes(), self.imm.to_le_bytes());
        [self.code, self.regs, off[0], off[1], imm[0], imm[1], imm[2], imm[3]]
    }

    pub fn src_reg(&self) -> u8 {
        self.regs >> 4
    }

    pub fn set_src_reg(&mut self, val: u8) {
        self.regs = self.regs & 0x0f | val << 4;
    }

    pub fn set_dst_reg(&mut self, val: u8) {
        self.regs = self.regs & 0xf0 | val & 0x0f;
    }
}

#[repr(C)]
#[derive(Debug, Copy, Clone)]
pub struct bpf_func_info {
    pub insn_off: u32,
    pub type_id: u32,
}

#[repr(C)]
#[derive(Debug, Copy, Clone)]
pub struct bpf_line_info {
    pub insn_off: u32,
    pub file_name_off: u32,
    pub line_off: u32,
    pub line_col: u32,
}
