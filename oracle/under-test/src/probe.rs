//! One record at a time through the crate's own private functions, each called where the crate calls it.
//!
//! The crate's errors become document 01's numbers. Where the crate has no number, or panics, the record is marked
//! as outside the domain, with the number that document 01 gives if it gives one.

#[path = "caught.rs"]
mod caught;
#[path = "guard.rs"]
mod guard;

use caught::{Panic, caught};
use guard::Walk;

use super::*;
use crate::btf::BtfExt;
use object::Endianness;

/// Parts in an access string, and the first bit offset that is too big.
const MAX_PARTS: usize = 64;
const BITS_END: usize = 1 << 32;
/// The one section of the made object.
const SECTION: SectionIndex = SectionIndex(0);

/// What document 01 section 3 says back of one record.
#[derive(Clone, Debug, PartialEq, Eq)]
pub enum Reply {
    Value(u64),
    Poison,
    Kind(u32),
    NotInFunction,
    Successor(usize),
    Access,
    Index { index: usize, count: usize },
    KindForType,
    Conflict { id: u32, count: usize },
    Nesting { id: u32 },
    Instruction(u8),
    NoMatch,
    Unresolved,
    Parts,
    Bits,
    Steps,
    /// document 01 leaves it open, or nobody waits for it
    Open,
}

/// Why a record is outside the domain.
#[derive(Clone, Copy, Debug, PartialEq, Eq, Hash, PartialOrd, Ord)]
pub enum Why {
    Panic,
    Parts,
    Bits,
    Nesting,
    SizeChange,
    Work,
}

#[derive(Clone, Debug)]
pub struct Mark {
    pub why: Why,
    pub text: String,
}

/// What was met on the way, to choose cases by.
#[derive(Clone, Copy, Debug, Default)]
pub struct Notes {
    pub type_kind: u32,
    pub resolved_kind: u32,
    pub accessors: usize,
    pub last_named: bool,
    pub candidates: usize,
    pub matches: usize,
    pub valueless: usize,
    pub unnamed: usize,
    pub first_index: usize,
    pub local_bits: usize,
    pub target_bits: usize,
    pub bitfields: (bool, bool),
    pub last_kinds: (u32, u32),
    pub sizes: (u32, u32),
}

/// One record's turn.
#[derive(Clone, Debug)]
pub struct Turn {
    pub reply: Reply,
    pub insn: Option<usize>,
    pub marks: Vec<Mark>,
    pub notes: Notes,
    /// where a guard and the crate say different things: a fault of this oracle
    pub doubts: Vec<String>,
}

/// A pair of BTFs as the crate reads them, and the function.
pub struct Session {
    local: Btf,
    target: Btf,
    pub function: Function,
    deep: bool,
    parameters: bool,
}

/// A candidate that matched, with what was computed for it.
struct Match {
    id: u32,
    bit_offset: usize,
    computed: ComputedRelocation,
}

/// The state of one record's walk.
struct Way<'s> {
    session: &'s Session,
    rel: Relocation,
    marks: Vec<Mark>,
    notes: Notes,
    doubts: Vec<String>,
}

fn function(insns: &[u8], section_offset: u64) -> Function {
    let instructions = insns.chunks_exact(8).map(|b| bpf_insn::from_bytes(b.try_into().unwrap())).collect();
    Function { section_index: SECTION, section_offset: section_offset as usize, instructions }
}

impl Function {
    pub fn bytes(&self) -> Vec<u8> {
        self.instructions.iter().flat_map(|i| i.to_bytes()).collect()
    }
}

/// The crate's reading of a BTF: what it says, or how it panics.
pub fn read(bytes: &[u8]) -> Result<Btf, String> {
    match caught(|| Btf::parse(bytes, Endianness::Little)) {
        Ok(Ok(btf)) => Ok(btf),
        Ok(Err(e)) => Err(format!("{e:?}")),
        Err(panic) => Err(format!("panic {}", panic.told())),
    }
}

impl Session {
    pub fn new(local: &[u8], target: &[u8], insns: &[u8], section_offset: u64) -> Result<Self, String> {
        let (local, target) = (read(local)?, read(target)?);
        let deep = guard::may_pass(&guard::unnamed_levels(&target));
        let parameters = guard::has_parameters(&target);
        Ok(Self { local, target, function: function(insns, section_offset), deep, parameters })
    }

    /// Applies one record of 16 bytes.
    pub fn record(&mut self, bytes: &[u8], number: usize) -> Turn {
        let refused = |reply| Turn { reply, insn: None, marks: Vec::new(), notes: Notes::default(), doubts: Vec::new() };
        let rel = match unsafe { Relocation::parse(bytes, number) } {
            Ok(rel) => rel,
            Err(BtfError::InvalidRelocationKind { kind }) => return refused(Reply::Kind(kind)),
            Err(e) => panic!("a record of 16 bytes is parsed: {e:?}"),
        };
        if !is_relocation_inside_function(SECTION, &self.function, &rel) {
            return refused(Reply::NotInFunction);
        }
        let insn = (rel.ins_offset - self.function.section_offset) / size_of::<bpf_insn>();
        let mut way = Way { session: self, rel, marks: Vec::new(), notes: Notes::default(), doubts: Vec::new() };
        let computed = way.compute();
        let Way { mut marks, notes, doubts, .. } = way;
        let reply = match computed {
            Ok(computed) => self.apply(&computed, &rel, insn, &mut marks),
            Err(reply) => reply,
        };
        Turn { reply, insn: Some(insn), marks, notes, doubts }
    }

    /// The crate's `apply`, unless reason 6 is due.
    fn apply(&mut self, computed: &ComputedRelocation, rel: &Relocation, insn: usize, marks: &mut Vec<Mark>) -> Reply {
        let class = u32::from(self.function.instructions[insn].code & 7);
        if let Some(target) = computed.target.filter(|t| is_size_change(class, &computed.local, t)) {
            let text = "one side of a size change has no type".to_string();
            marks.push(Mark { why: Why::SizeChange, text });
            self.function.instructions[insn].off = target.value as i16;
            return Reply::Instruction(6);
        }
        let (local, target, function) = (&self.local, &self.target, &mut self.function);
        match caught(|| computed.apply(function, rel, local, target)) {
            Ok(Ok(())) => computed.target.map_or(Reply::Poison, |t| Reply::Value(t.value)),
            Ok(Err(e)) => reply_of(e, 0, insn),
            Err(panic) => {
                marks.push(Mark { why: Why::Panic, text: panic.told() });
                Reply::Open
            }
        }
    }

    /// The crate's whole call on a list: its error as a reply (ids it does not tell are 0), and the function after it.
    pub fn whole(&self, function: &Function, records: &[u8]) -> (Result<(), Reply>, Function) {
        let relos: Vec<Relocation> =
            records.chunks(16).enumerate().map(|(n, r)| unsafe { Relocation::parse(r, n) }.expect("a known kind")).collect();
        let mut functions = BTreeMap::from([((SECTION.0, function.section_offset as u64), function.clone())]);
        let called = caught(|| {
            let mut cache = HashMap::new();
            relocate_btf_functions(SECTION, &mut functions, &relos, &self.local, &self.target, &mut cache)
        });
        let said = match called {
            Ok(Ok(())) => Ok(()),
            Ok(Err(e)) => Err(reply_of(e, 0, 0)),
            Err(_) => Err(Reply::Open),
        };
        (said, functions.into_values().next().expect("the one function"))
    }
}

/// Whether section 7's reason 6 is due: sizes differ and one side has no type.
fn is_size_change(class: u32, local: &ComputedRelocationValue, target: &ComputedRelocationValue) -> bool {
    [BPF_LDX, BPF_ST, BPF_STX].contains(&class)
        && target.value <= i16::MAX as u64
        && local.size != target.size
        && (local.type_id.is_none() || target.type_id.is_none())
}

/// A number for each error of the crate. `id` is the candidate's, `insn` the record's own instruction.
fn reply_of(error: RelocationError, id: u32, insn: usize) -> Reply {
    match error {
        RelocationError::FunctionNotFound => Reply::NotInFunction,
        RelocationError::InvalidInstructionIndex { .. } => Reply::Successor(insn + 1),
        RelocationError::InvalidAccessString { .. } => Reply::Access,
        RelocationError::InvalidAccessIndex { index, max_index, .. } => Reply::Index { index, count: max_index },
        RelocationError::InvalidRelocationKindForType { .. } => Reply::KindForType,
        RelocationError::ConflictingCandidates { candidates, .. } => Reply::Conflict { id, count: candidates.len() },
        RelocationError::MaximumNestingLevelReached { .. } => Reply::Nesting { id },
        RelocationError::InvalidInstruction { error, .. } => Reply::Instruction(reason(&error)),
        RelocationError::MissingTargetDefinition { .. } => Reply::NoMatch,
        RelocationError::BtfError(_) => Reply::Unresolved,
        RelocationError::IOError(_) | RelocationError::SectionNotFound => Reply::Open,
    }
}

/// Section 3's reason, by how the crate's text begins.
fn reason(text: &str) -> u8 {
    let begins = ["invalid src_reg", "value `", "original type", "invalid target size", "invalid instruction class"];
    begins.iter().position(|b| text.starts_with(b)).map_or(0, |at| at as u8 + 1)
}

impl<'s> Way<'s> {
    fn mark(&mut self, why: Why, text: impl Into<String>) {
        self.marks.push(Mark { why, text: text.into() });
    }

    /// The value of the first match, or of none; as `relocate_btf_functions` goes about it.
    fn compute(&mut self) -> Result<ComputedRelocation, Reply> {
        let (session, rel) = (self.session, self.rel);
        let local_ty = session.local.type_by_id(rel.type_id).map_err(|_| Reply::Unresolved)?;
        self.notes.type_kind = local_ty.kind() as u32;
        let local_name = session.local.type_name(local_ty).map_err(|_| Reply::Unresolved)?;
        let access = match caught(|| session.local.string_at(rel.access_str_offset)) {
            Ok(text) => text.map_err(|_| Reply::Unresolved)?,
            Err(panic) => return Err(self.panicked(&panic)),
        };
        let spec = self.local_spec(&access)?;
        let mut matches = Vec::new();
        if !matches!(rel.kind, RelocationKind::TypeIdLocal) {
            let candidates = find_candidates(local_ty, &local_name, &session.target).map_err(|_| Reply::Unresolved)?;
            self.notes.candidates = candidates.len();
            for candidate in &candidates {
                matches.extend(self.candidate(&spec, candidate)?);
            }
        }
        self.notes.matches = matches.len();
        self.notes.valueless = matches.iter().filter(|m| m.computed.target.is_none()).count();
        if matches.is_empty() {
            return self.computed(&spec, None);
        }
        let first = matches.remove(0);
        let conflicts: Vec<u32> = matches.iter().filter(|m| conflicts(&first, m)).map(|m| m.id).collect();
        match conflicts.first() {
            Some(&id) => Err(Reply::Conflict { id, count: conflicts.len() }),
            None => Ok(first.computed),
        }
    }

    /// The local walk; 15 and 16 where they are due.
    fn local_spec(&mut self, access: &str) -> Result<AccessSpec<'s>, Reply> {
        let parts: Vec<&str> = access.split(':').collect();
        if parts.len() > MAX_PARTS && parts.iter().all(|p| p.parse::<usize>().is_ok()) {
            self.mark(Why::Parts, format!("{} parts", parts.len()));
            return Err(Reply::Parts);
        }
        let btf = &self.session.local;
        let said = caught(|| AccessSpec::new(btf, self.rel.type_id, access, self.rel));
        let spec = match said {
            Ok(Err(e @ RelocationError::InvalidAccessString { .. })) => return Err(reply_of(e, 0, 0)),
            Ok(Err(e)) => {
                self.passed_locally(&parts)?;
                return Err(reply_of(e, 0, 0));
            }
            Err(panic) => {
                self.passed_locally(&parts)?;
                return Err(self.panicked(&panic));
            }
            Ok(Ok(spec)) => self.in_bits(spec)?,
        };
        self.note_local(&spec);
        Ok(spec)
    }

    /// 16, if the bit offset had reached 2^32 before the walk ended otherwise: the longest beginning that walks tells.
    fn passed_locally(&mut self, parts: &[&str]) -> Result<(), Reply> {
        for n in (1..parts.len()).rev() {
            let beginning = parts[..n].join(":");
            let btf = &self.session.local;
            if let Ok(Ok(spec)) = caught(|| AccessSpec::new(btf, self.rel.type_id, &beginning, self.rel)) {
                return self.in_bits(spec).map(drop);
            }
        }
        Ok(())
    }

    fn in_bits<'a>(&mut self, spec: AccessSpec<'a>) -> Result<AccessSpec<'a>, Reply> {
        if spec.bit_offset < BITS_END {
            return Ok(spec);
        }
        self.mark(Why::Bits, format!("bit offset {}", spec.bit_offset));
        Err(Reply::Bits)
    }

    fn note_local(&mut self, spec: &AccessSpec<'_>) {
        let btf = &self.session.local;
        let kind = |id| btf.type_by_id(id).map_or(0, |ty| ty.kind() as u32);
        self.notes.resolved_kind = btf.resolve_type(spec.root_type_id).map_or(0, kind);
        self.notes.accessors = spec.accessors.len();
        self.notes.last_named = spec.accessors.last().is_some_and(|a| a.name.is_some());
        self.notes.unnamed = spec.parts.len().saturating_sub(spec.accessors.len().max(1));
        self.notes.first_index = spec.parts[0];
        self.notes.local_bits = spec.bit_offset;
        (self.notes.bitfields.0, self.notes.last_kinds.0) = last_member(spec);
    }

    /// What one candidate comes to: no match, or a match with its values.
    fn candidate(&mut self, spec: &AccessSpec<'_>, candidate: &Candidate<'_>) -> Result<Option<Match>, Reply> {
        let guess = self.guarded(spec, candidate)?;
        let said = caught(|| match_candidate(spec, candidate));
        self.doubt(guess, &said, candidate.type_id);
        let found = match said {
            Ok(Ok(Some(found))) => self.in_bits(found)?,
            Ok(Ok(None)) => {
                self.passed(spec, candidate)?;
                return Ok(None);
            }
            Ok(Err(e)) => {
                self.passed(spec, candidate)?;
                return Err(reply_of(e, candidate.type_id, 0));
            }
            Err(panic) => {
                self.passed(spec, candidate)?;
                return Err(self.panicked(&panic));
            }
        };
        let computed = self.computed(spec, Some(&found))?;
        self.notes.target_bits = found.bit_offset;
        (self.notes.bitfields.1, self.notes.last_kinds.1) = last_member(&found);
        self.notes.sizes = (computed.local.size, computed.target.map_or(0, |t| t.size));
        Ok(Some(Match { id: candidate.type_id, bit_offset: found.bit_offset, computed }))
    }

    /// 16, if the target's bit offset had reached 2^32 before the walk ended otherwise.
    fn passed(&mut self, spec: &AccessSpec<'_>, candidate: &Candidate<'_>) -> Result<(), Reply> {
        for n in (1..spec.accessors.len()).rev() {
            if let Ok(Ok(Some(found))) = caught(|| match_candidate(&beginning(spec, n), candidate)) {
                return self.in_bits(found).map(drop);
            }
        }
        Ok(())
    }

    /// A guard that lets a walk through foretells what the crate says of it.
    fn doubt(&mut self, guess: Option<Walk>, said: &Result<Result<Option<AccessSpec<'_>>, RelocationError>, Panic>, id: u32) {
        let agrees = match (guess, said) {
            (Some(Walk::Found), said) => matches!(said, Ok(Ok(Some(_)))),
            (Some(Walk::Nothing), said) => matches!(said, Ok(Ok(None))),
            (Some(Walk::Faulty), said) => matches!(said, Ok(Err(_)) | Err(_)),
            _ => true,
        };
        if !agrees {
            self.doubts.push(format!("candidate {id}: the guard says {guess:?}"));
        }
    }

    /// 17, if one of the guards says so; else what the guard of a type check foretells.
    fn guarded(&mut self, spec: &AccessSpec<'_>, candidate: &Candidate<'_>) -> Result<Option<Walk>, Reply> {
        let is_type = spec.accessors.is_empty();
        let walk = if is_type && self.session.parameters {
            guard::types(spec.btf, spec.root_type_id, candidate.btf, candidate.type_id)
        } else if !is_type && self.session.deep {
            self.searches(spec, candidate)?
        } else {
            return Ok(None);
        };
        match walk {
            Walk::Excess => {
                self.mark(Why::Nesting, format!("candidate {}", candidate.type_id));
                Err(Reply::Steps)
            }
            Walk::Endless => {
                self.mark(Why::Work, format!("candidate {}", candidate.type_id));
                Err(Reply::Open)
            }
            _ => Ok(is_type.then_some(walk)),
        }
    }

    /// Each member search of a candidate's walk, begun where the crate's own walk of the accessors before it stands.
    fn searches(&mut self, spec: &AccessSpec<'_>, candidate: &Candidate<'_>) -> Result<Walk, Reply> {
        for n in 1..spec.accessors.len() {
            if spec.accessors[n].name.is_none() {
                continue;
            }
            let Ok(Ok(Some(found))) = caught(|| match_candidate(&beginning(spec, n), candidate)) else {
                return Ok(Walk::Nothing);
            };
            let found = self.in_bits(found)?;
            if found.parts.len() == MAX_SPEC_LEN {
                return Ok(Walk::Nothing);
            }
            let walk = guard::search(spec, &spec.accessors[n], candidate.btf, standing(&found));
            if walk != Walk::Found {
                return Ok(walk);
            }
        }
        Ok(Walk::Nothing)
    }

    /// The crate's value of both sides; a panic on one side is section 6's failure of that side.
    fn computed(&mut self, spec: &AccessSpec<'_>, found: Option<&AccessSpec<'_>>) -> Result<ComputedRelocation, Reply> {
        let rel = self.rel;
        match caught(|| ComputedRelocation::new(&rel, spec, found)) {
            Ok(Ok(computed)) => return Ok(computed),
            Ok(Err(e)) => return Err(reply_of(e, 0, 0)),
            Err(panic) if spec.accessors.is_empty() => return Err(self.panicked(&panic)),
            Err(_) => {}
        }
        let local = match caught(|| ComputedRelocation::compute_field_relocation(&rel, Some(spec))) {
            Ok(Ok(value)) => value,
            Ok(Err(e)) => return Err(reply_of(e, 0, 0)),
            Err(panic) => return Err(self.failed(&panic)),
        };
        let target = match caught(|| ComputedRelocation::compute_field_relocation(&rel, found)) {
            Ok(value) => value.ok(),
            Err(panic) => match self.failed(&panic) {
                Reply::Unresolved => None,
                reply => return Err(reply),
            },
        };
        Ok(ComputedRelocation { local, target })
    }

    /// A panic in a walk: a sum or product of bit offsets is 16, everything else is not resolved.
    fn panicked(&mut self, panic: &Panic) -> Reply {
        self.mark(Why::Panic, panic.told());
        match panic.file.as_str() {
            "relocation.rs" if panic.is_overflow() => Reply::Bits,
            "relocation.rs" => Reply::Open,
            _ => Reply::Unresolved,
        }
    }

    /// A panic in a value: a failure of that side, except where only the width of the crate's numbers is at fault.
    fn failed(&mut self, panic: &Panic) -> Reply {
        self.mark(Why::Panic, panic.told());
        match panic.file.as_str() {
            "relocation.rs" if panic.is_overflow() => Reply::Open,
            _ => Reply::Unresolved,
        }
    }
}

/// As the crate's own filter has it.
fn conflicts(first: &Match, other: &Match) -> bool {
    first.bit_offset != other.bit_offset
        || first.computed.target.zip(other.computed.target).is_some_and(|(a, b)| a.value != b.value)
}

/// The same local walk with the first `n` accessors only.
fn beginning<'a>(spec: &AccessSpec<'a>, n: usize) -> AccessSpec<'a> {
    let accessors = spec.accessors[..n].iter();
    AccessSpec {
        btf: spec.btf,
        root_type_id: spec.root_type_id,
        parts: Vec::new(),
        accessors: accessors.map(|a| Accessor { type_id: a.type_id, index: a.index, name: a.name.clone() }).collect(),
        relocation: spec.relocation,
        bit_offset: 0,
    }
}

/// The type that a walk has come to: its last accessor's member, or element.
fn standing(spec: &AccessSpec<'_>) -> u32 {
    let last = spec.accessors.last().expect("the first index");
    match (spec.btf.type_by_id(last.type_id), &last.name) {
        (Ok(BtfType::Struct(Struct { members, .. }) | BtfType::Union(Union { members, .. })), Some(_)) => members[last.index].btf_type,
        _ => last.type_id,
    }
}

/// Whether a walk's last member is a bitfield, and the kind of its type.
fn last_member(spec: &AccessSpec<'_>) -> (bool, u32) {
    let Some(last) = spec.accessors.last() else {
        return (false, 0);
    };
    let kind = |id| spec.btf.resolve_type(id).and_then(|id| spec.btf.type_by_id(id)).map_or(0, |ty| ty.kind() as u32);
    let Ok(ty) = spec.btf.type_by_id(last.type_id) else {
        return (false, 0);
    };
    match ty {
        BtfType::Struct(Struct { members, .. }) | BtfType::Union(Union { members, .. }) if last.name.is_some() => {
            let member = &members[last.index];
            (ty.member_bit_field_size(member).is_some_and(|n| n > 0), kind(member.btf_type))
        }
        _ => (false, kind(last.type_id)),
    }
}

/// An object with one function and one group of records, ready for the crate's public call.
pub struct Prepared {
    object: Object,
    fresh: Function,
}

/// A BTF that the crate has read.
pub struct Read(Btf);

impl Read {
    pub fn new(bytes: &[u8]) -> Option<Self> {
        Btf::parse(bytes, Endianness::Little).ok().map(Self)
    }
}

impl Prepared {
    /// Reads the local BTF and the records, as a `.BTF.ext` section of one group, through the crate.
    pub fn new(local: &[u8], insns: &[u8], section_offset: u64, records: &[u8]) -> Option<Self> {
        let btf = Btf::parse(local, Endianness::Little).ok()?;
        let btf_ext = BtfExt::parse(&ext_section(records), Endianness::Little, &btf).ok()?;
        let fresh = function(insns, section_offset);
        let object = Object {
            btf: Some(btf),
            btf_ext: Some(btf_ext),
            functions: BTreeMap::from([((SECTION.0, section_offset), fresh.clone())]),
            section_infos: HashMap::from([(String::new(), (SECTION, 0))]),
            symbol_offset_by_name: HashMap::new(),
        };
        Some(Self { object, fresh })
    }

    /// The function as it was given.
    pub fn before(&self) -> Function {
        self.fresh.clone()
    }

    /// Puts the instructions back as they were given.
    pub fn reset(&mut self) {
        let fresh = &self.fresh.instructions;
        self.object.functions.values_mut().for_each(|f| f.instructions.clone_from(fresh));
    }

    /// `Object::relocate_btf`; whether the crate accepted the list.
    pub fn relocate(&mut self, target: &Read) -> bool {
        self.object.relocate_btf(&target.0).is_ok()
    }

    /// The same with panics caught: none where the crate panics.
    pub fn relocate_caught(&mut self, target: &Read) -> Option<bool> {
        caught(|| self.relocate(target)).ok()
    }

    pub fn insns(&self) -> Vec<u8> {
        self.object.functions.values().flat_map(|f| f.bytes()).collect()
    }
}

/// `.BTF.ext` with the records as its one group, whose section has the empty name.
fn ext_section(records: &[u8]) -> Vec<u8> {
    let count = (records.len() / 16) as u32;
    let length = if count == 0 { 0 } else { 12 + records.len() as u32 };
    let words = [0x0001_eb9f, 32, 0, 0, 0, 0, 0, length];
    let group = [16, 0, count];
    let group = if count == 0 { &[][..] } else { &group[..] };
    let head = words.iter().chain(group).flat_map(|w: &u32| w.to_le_bytes());
    head.chain(records.iter().copied()).collect()
}
