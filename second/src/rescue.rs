//! "Rescue a damaged plan file", document 02's request (viii).

use crate::answer::Answer;
use crate::bytes::{plan_bytes, HEADER_BYTES};
use crate::bytes::{take_header, take_kind, take_project, BitsIn};
use crate::plan::{header_out_of_range, Kind, Plan, Project};

/// "Fields are 1 to 3 for spare bits of header, project and kind, 4 q, 5 B, 6 D, 7 a dropped kind (values 0)".
#[derive(Clone, Copy, Debug, PartialEq, Eq, Hash)]
#[allow(missing_docs)]
pub enum Field {
    HeaderSpare = 1,
    ProjectSpare = 2,
    KindSpare = 3,
    Ceiling = 4,
    Budget = 5,
    Deadline = 6,
    Dropped = 7,
}

/// "Each change is listed": "field, place in the original, old and new value".
#[derive(Clone, Copy, Debug, PartialEq, Eq, Hash)]
pub struct Change {
    /// "field".
    pub field: Field,
    /// "place in the original".
    pub place: usize,
    /// "old [...] value".
    pub old: u16,
    /// "new value".
    pub new: u16,
}

impl Change {
    /// "in six bytes: field, place in the original, old and new value in two bytes each, high byte first".
    pub fn bytes(&self) -> [u8; 6] {
        let [old_high, old_low] = self.old.to_be_bytes();
        let [new_high, new_low] = self.new.to_be_bytes();
        [
            self.field as u8,
            self.place as u8,
            old_high,
            old_low,
            new_high,
            new_low,
        ]
    }
}

/// What the bytes say, in order or not: each part beside its spare bits.
struct Damaged {
    header: Plan,
    header_spare: u16,
    projects: Vec<(Project, u16)>,
    kinds: Vec<(Kind, u16)>,
}

/// "A tool takes bytes that pass 1 and 2 and gives a plan that passes 2 to 6"; with it the bytes of the list.
pub fn rescue(bytes: &[u8], list: &mut [u8]) -> (Answer, Plan, usize) {
    // "any plan, figure or place that its answer carries is zero when refused".
    let refused = |answer| (answer, Plan::default(), 0);
    let damaged = match take_or_refuse(bytes) {
        Ok(damaged) => damaged,
        Err(answer) => return refused(answer),
    };
    let (plan, changes) = repaired(damaged);
    // "20 when no kind remains".
    if plan.n == 0 {
        return refused(Answer::refused(20));
    }
    // "9 when the list's entries don't all fit".
    let entries: Vec<u8> = changes.iter().flat_map(Change::bytes).collect();
    if entries.len() > list.len() {
        return refused(Answer::refused(9));
    }
    list[..entries.len()].copy_from_slice(&entries);
    (Answer::GOOD, plan, entries.len())
}

/// "Refusals: 1 and 2 as in reading": "1 for the first three bytes, 2, 1 for the total".
fn take_or_refuse(bytes: &[u8]) -> Result<Damaged, Answer> {
    if bytes.len() < HEADER_BYTES {
        return Err(Answer::refused(1));
    }
    let mut bits = BitsIn { bytes, next: 0 };
    let mut header = Plan::default();
    let header_spare = take_header(&mut bits, &mut header);
    if header_out_of_range(&header) {
        return Err(Answer::refused(2));
    }
    if bytes.len() < plan_bytes(header.p, header.n) {
        return Err(Answer::refused(1));
    }
    let mut projects = Vec::new();
    for _ in 0..header.p {
        let mut project = Project::default();
        let spare = take_project(&mut bits, &mut project);
        projects.push((project, spare));
    }
    let mut kinds = Vec::new();
    for _ in 0..header.n {
        let mut kind = Kind::default();
        let spare = take_kind(&mut bits, &mut kind);
        kinds.push((kind, spare));
    }
    Ok(Damaged {
        header,
        header_spare,
        projects,
        kinds,
    })
}

/// The changes "in this order", and the plan they lead to.
fn repaired(damaged: Damaged) -> (Plan, Vec<Change>) {
    let Damaged {
        header,
        header_spare,
        mut projects,
        mut kinds,
    } = damaged;
    let mut changes = Vec::new();
    let mut change = |field, place, old, new| {
        changes.push(Change {
            field,
            place,
            old,
            new,
        });
        new
    };

    // "clear spare bits".
    if header_spare != 0 {
        change(Field::HeaderSpare, 0, header_spare, 0);
    }
    for (place, &(_, spare)) in projects.iter().enumerate() {
        if spare != 0 {
            change(Field::ProjectSpare, place, spare, 0);
        }
    }
    for (place, &(_, spare)) in kinds.iter().enumerate() {
        if spare != 0 {
            change(Field::KindSpare, place, spare, 0);
        }
    }

    // "by project".
    for (place, (project, _)) in projects.iter_mut().enumerate() {
        // "raise q of 0 to 1 and lower q above m to m".
        let q = u16::from(project.ceiling);
        if q == 0 {
            project.ceiling = change(Field::Ceiling, place, q, 1) as u8;
        } else if q > u16::from(header.m) {
            project.ceiling = change(Field::Ceiling, place, q, u16::from(header.m)) as u8;
        }
        // "then raise B of 0 to 1 and lower B above qF".
        let b = project.budget;
        let most = u16::from(project.ceiling) * u16::from(header.frame);
        if b == 0 {
            project.budget = change(Field::Budget, place, b, 1);
        } else if b > most {
            project.budget = change(Field::Budget, place, b, most);
        }
    }

    // "by kind".
    let mut dropped = Vec::new();
    for (place, (kind, _)) in kinds.iter_mut().enumerate() {
        // "lower D above T to T".
        if kind.deadline > kind.separation {
            kind.deadline = change(Field::Deadline, place, kind.deadline, kind.separation);
        }
        // "then drop the kind if its project is absent or C is 0 or above D".
        if kind.project >= header.p || kind.length == 0 || kind.length > kind.deadline {
            change(Field::Dropped, place, 0, 0);
            dropped.push(place);
        }
    }

    // "a dropped kind has only that entry".
    changes.retain(|change| match change.field {
        Field::KindSpare | Field::Deadline => !dropped.contains(&change.place),
        _ => true,
    });

    let mut plan = header;
    for (place, (project, _)) in projects.into_iter().enumerate() {
        plan.projects[place] = project;
    }
    plan.n = 0;
    for (place, (kind, _)) in kinds.into_iter().enumerate() {
        if !dropped.contains(&place) {
            plan.kinds[usize::from(plan.n)] = kind;
            plan.n += 1;
        }
    }
    (plan, changes)
}

/// "the list applied to the original gives the result": each entry puts its new value where its old value stands, and the dropped
/// kinds leave at the end. None where an entry's old value does not stand there, or the bytes have no such place.
pub fn applied(original: &[u8], list: &[u8]) -> Option<Vec<u8>> {
    let (p, n) = (original.first()? & 0b1111, original.get(1)? >> 3);
    let taken = original.get(..plan_bytes(p, n))?;
    let (p, n) = (usize::from(p), usize::from(n));
    let mut bits: Vec<u16> = Vec::new();
    for byte in taken {
        bits.extend((0..8).rev().map(|place| u16::from(byte >> place & 1)));
    }
    let mut dropped = Vec::new();
    for entry in list.chunks(6) {
        let &[field, place, old_high, old_low, new_high, new_low] = entry else {
            return None;
        };
        let old = u16::from_be_bytes([old_high, old_low]);
        let new = u16::from_be_bytes([new_high, new_low]);
        let place = usize::from(place);
        let (project, kind) = (24 + 16 * place, 24 + 16 * p + 40 * place);
        // Where the field stands: "m 4, p 4, n 5, F 7, spare 4"; "q 4, B 10, spare 2"; "project from 0 (3), T 12, D 12, C 12, spare 1".
        let (from, width) = match field {
            1 => (20, 4),
            2 => (project + 14, 2),
            3 => (kind + 39, 1),
            4 => (project, 4),
            5 => (project + 4, 10),
            6 => (kind + 15, 12),
            7 if (old, new) == (0, 0) && place < n && dropped.last() < Some(&kind) => {
                dropped.push(kind);
                continue;
            }
            _ => return None,
        };
        let standing = bits.get_mut(from..from + width)?;
        if standing.iter().fold(0, |value, bit| value << 1 | *bit) != old {
            return None;
        }
        for (at, bit) in standing.iter_mut().rev().enumerate() {
            *bit = new >> at & 1;
        }
    }
    // "n 5" tells how many are left.
    let left = (n - dropped.len()) as u16;
    for (at, bit) in bits[8..13].iter_mut().rev().enumerate() {
        *bit = left >> at & 1;
    }
    for kind in dropped.into_iter().rev() {
        bits.drain(kind..kind + 40);
    }
    let byte = |eight: &[u16]| eight.iter().fold(0, |byte, bit| byte << 1 | *bit as u8);
    Some(bits.chunks(8).map(byte).collect())
}
