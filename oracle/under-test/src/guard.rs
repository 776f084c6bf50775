//! The two nesting limits of document 01 section 2, which the crate does not have.
//!
//! A guard says whether 17 is due before the crate is asked, because the crate would go on, in a circle until its
//! stack ends. It never gives an answer: where it says nothing, the crate's own answer is taken.

use super::{caught::caught, *};
use crate::btf::Btf;

/// Unnamed levels in one member search, steps in one type compatibility check.
const LEVELS: u32 = 32;
const STEPS: u32 = 32;
/// The crate's own turns of one check.
const TURNS: u32 = 32;
/// Past so many looks at a pair of types a check is left alone.
const WORK: u64 = 1 << 22;

/// What a guarded walk comes to.
#[derive(Clone, Copy, Debug, PartialEq, Eq)]
pub enum Walk {
    Found,
    Nothing,
    /// the crate has a fault of its own here
    Faulty,
    /// 17 is due
    Excess,
    /// so much work that nobody waits for it
    Endless,
}

/// For each type of a BTF, how many unnamed levels a search may go down from it, at most LEVELS + 1.
pub fn unnamed_levels(btf: &Btf) -> Vec<u32> {
    let mut levels = vec![0; btf.types().count()];
    for _ in 0..=LEVELS {
        let mut changed = false;
        for (id, ty) in btf.types().enumerate() {
            let deepest = ty.members().into_iter().flatten().filter(|m| is_unnamed(btf, m)).map(|m| below(btf, m, &levels)).max();
            let deepest = deepest.unwrap_or(0).min(LEVELS + 1);
            changed |= deepest > levels[id];
            levels[id] = deepest;
        }
        if !changed {
            break;
        }
    }
    levels
}

fn below(btf: &Btf, member: &BtfMember, levels: &[u32]) -> u32 {
    1 + btf.resolve_type(member.btf_type).map_or(0, |id| levels[id as usize])
}

fn is_unnamed(btf: &Btf, member: &BtfMember) -> bool {
    btf.string_at(member.name_offset).is_ok_and(|name| name.is_empty())
}

/// Whether a search can pass the limit at all.
pub fn may_pass(levels: &[u32]) -> bool {
    levels.iter().any(|&n| n > LEVELS)
}

/// Whether any prototype has parameters: only through them does the crate's type check call itself.
pub fn has_parameters(btf: &Btf) -> bool {
    btf.types().any(|ty| matches!(ty, BtfType::FuncProto(proto) if !proto.params.is_empty()))
}

/// One member search, going down at most LEVELS unnamed levels.
pub(super) fn search(spec: &AccessSpec<'_>, accessor: &Accessor, target: &Btf, id: u32) -> Walk {
    let mut work = WORK;
    level(spec, accessor, target, id, LEVELS, &mut work)
}

fn level(spec: &AccessSpec<'_>, accessor: &Accessor, target: &Btf, id: u32, left: u32, work: &mut u64) -> Walk {
    let Some(ty) = target.resolve_type(id).ok().and_then(|id| target.type_by_id(id).ok()) else {
        return Walk::Faulty;
    };
    let name = accessor.name.as_deref().unwrap_or_default();
    for member in ty.members().into_iter().flatten() {
        *work -= 1;
        if *work == 0 {
            return Walk::Endless;
        }
        if is_unnamed(target, member) {
            if left == 0 {
                return Walk::Excess;
            }
            match level(spec, accessor, target, member.btf_type, left - 1, work) {
                Walk::Nothing => {}
                walk => return walk,
            }
        } else if target.string_at(member.name_offset).is_ok_and(|n| n == name) {
            return field_check(spec, accessor, target, member);
        }
    }
    Walk::Nothing
}

fn field_check(spec: &AccessSpec<'_>, accessor: &Accessor, target: &Btf, member: &BtfMember) -> Walk {
    let Ok(BtfType::Struct(Struct { members, .. }) | BtfType::Union(Union { members, .. })) = spec.btf.type_by_id(accessor.type_id) else {
        return Walk::Faulty;
    };
    let local = members[accessor.index].btf_type;
    match caught(|| fields_are_compatible(spec.btf, local, target, member.btf_type)) {
        Ok(Ok(true)) => Walk::Found,
        Ok(Ok(false)) => Walk::Nothing,
        _ => Walk::Faulty,
    }
}

/// One type compatibility check, of at most STEPS steps from its start.
pub fn types(local: &Btf, local_id: u32, target: &Btf, target_id: u32) -> Walk {
    let mut work = WORK;
    within(local, local_id, target, target_id, STEPS, &mut work)
}

fn within(local: &Btf, local_id: u32, target: &Btf, target_id: u32, left: u32, work: &mut u64) -> Walk {
    let (mut local_id, mut target_id, mut left) = (local_id, target_id, left);
    for _ in 0..TURNS {
        *work -= 1;
        if *work == 0 {
            return Walk::Endless;
        }
        let pair = (resolved(local, local_id), resolved(target, target_id));
        let (Some(local_ty), Some(target_ty)) = pair else {
            return Walk::Faulty;
        };
        if !local_ty.is_compatible(target_ty) {
            return Walk::Nothing;
        }
        (local_id, target_id) = match (local_ty, target_ty) {
            (BtfType::Ptr(l), BtfType::Ptr(t)) => (l.btf_type, t.btf_type),
            (BtfType::Array(l), BtfType::Array(t)) => (l.array.element_type, t.array.element_type),
            (BtfType::FuncProto(l), BtfType::FuncProto(t)) => {
                if l.params.len() != t.params.len() {
                    return Walk::Nothing;
                }
                for (lp, tp) in l.params.iter().zip(&t.params) {
                    match step(left, || within(local, lp.btf_type, target, tp.btf_type, left - 1, work)) {
                        Walk::Found => {}
                        walk => return walk,
                    }
                }
                (l.return_type, t.return_type)
            }
            (BtfType::Int(l), BtfType::Int(t)) => {
                return if l.offset() == 0 && t.offset() == 0 { Walk::Found } else { Walk::Nothing };
            }
            (BtfType::Func(_) | BtfType::Var(_) | BtfType::DataSec(_) | BtfType::DeclTag(_), _) => return Walk::Faulty,
            _ => return Walk::Found,
        };
        match left.checked_sub(1) {
            Some(rest) => left = rest,
            None => return Walk::Excess,
        }
    }
    Walk::Faulty
}

fn step(left: u32, go: impl FnOnce() -> Walk) -> Walk {
    if left == 0 { Walk::Excess } else { go() }
}

fn resolved(btf: &Btf, id: u32) -> Option<&BtfType> {
    btf.type_by_id(btf.resolve_type(id).ok()?).ok()
}
