//! An instruction as a line of text.

/// The bytes of an instruction in hexadecimal, with its class, registers, offset and immediate.
pub fn line(insn: &[u8]) -> String {
    let hex: Vec<String> = insn.iter().map(|byte| format!("{byte:02x}")).collect();
    let off = i16::from_le_bytes([insn[2], insn[3]]);
    let imm = i32::from_le_bytes([insn[4], insn[5], insn[6], insn[7]]);
    let (dst, src) = (insn[1] % 16, insn[1] / 16);
    let what = match insn[0] % 8 {
        0 => format!("ld    r{dst} imm={imm}"),
        1 => format!("ldx   r{dst} = {}(r{src}{off:+})", size(insn[0])),
        2 => format!("st    {}(r{dst}{off:+}) = {imm}", size(insn[0])),
        3 => format!("stx   {}(r{dst}{off:+}) = r{src}", size(insn[0])),
        4 => format!("alu   r{dst} r{src} imm={imm}"),
        7 => format!("alu64 r{dst} r{src} imm={imm}"),
        _ => format!("jmp   r{dst} r{src} off={off} imm={imm}"),
    };
    format!("{}   {what}", hex.join(" "))
}

fn size(code: u8) -> &'static str {
    match code & 0x18 {
        0x10 => "u8",
        0x08 => "u16",
        0x00 => "u32",
        _ => "u64",
    }
}
