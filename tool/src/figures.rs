//! The figures behind a verdict: of each kind W, and for each k what it asks, kC + W, and what it gets,
//! S(k,D), with the bad slice to arrive in.
//!
//! W, S(k,D) and the slices are the library's figures of a kind. A verdict names the first kind with no k
//! alone; but the order of kinds changes no fit, so each kind is put first in turn and judged again.

use bindings::{Answer, Kind, Plan};

/// One k.
#[derive(Clone, Copy, Debug, PartialEq, Eq)]
pub struct Width {
    /// The cards that count at one slice, at most.
    pub k: u8,
    /// kC + W.
    pub asks: u64,
    /// S(k,D).
    pub gets: u64,
    /// The bad slice.
    pub slice: u8,
}

impl Width {
    /// What is left, or, below 0, what is missing.
    pub fn room(&self) -> i64 {
        let [gets, asks] =
            [self.gets, self.asks].map(|number| i64::try_from(number).unwrap_or(i64::MAX));
        gets - asks
    }
}

/// What the verdict rests on for one kind.
#[derive(Clone, Debug)]
pub struct Figures {
    /// The kind.
    pub kind: usize,
    /// W.
    pub workload: u64,
    /// Each k of 1 to the ceiling.
    pub widths: Vec<Width>,
    /// The place among these of the least k that fits.
    pub fits: Option<usize>,
    /// The answer where none fits, with this kind as its place.
    pub refused: Option<Answer>,
    /// The greatest length at which the kind has a k; 0 where there is none.
    pub longest: u16,
}

impl Figures {
    /// The k that fits, or the one that is nearest to it: the least that allows the greatest length.
    pub fn shown(&self) -> Option<&Width> {
        // The greatest length, or, where not even 0 is allowed, what is missing.
        let allows = |width: &Width| match width.gets.checked_sub(self.workload) {
            Some(left) => (Some(left / u64::from(width.k.max(1))), 0),
            None => (None, width.room()),
        };
        match self.fits {
            Some(place) => self.widths.get(place),
            None => self.widths.iter().rev().max_by_key(|width| allows(width)),
        }
    }
}

/// The figures of each kind of a plan in order.
pub fn of(plan: &Plan) -> Vec<Figures> {
    let verdict = plan.verdict();
    let kinds = plan.kind.iter().take(usize::from(plan.kinds)).enumerate();
    let figures = kinds.map(|(place, kind)| {
        let (workload, widths) = widths(plan, place, kind);
        let refused = match verdict {
            Ok(_) => None,
            Err(_) => refusal(&first(plan, place, kind.length), place),
        };
        let fits = match (&verdict, refused) {
            (Ok(verdict), _) => {
                let k = verdict.k.get(place).copied();
                widths.iter().position(|width| Some(width.k) == k)
            }
            (Err(_), None) => widths.iter().position(|width| width.room() >= 0),
            (Err(_), Some(_)) => None,
        };
        let longest = match refusal(&first(plan, place, kind.deadline), place) {
            None => kind.deadline,
            Some(answer) => {
                let longest = u32::from(kind.deadline).saturating_sub(answer.excess);
                u16::try_from(longest).unwrap_or(0)
            }
        };
        Figures {
            kind: place,
            workload,
            widths,
            fits,
            refused,
            longest,
        }
    });
    figures.collect()
}

/// W, and what each k asks and gets.
fn widths(plan: &Plan, place: usize, kind: &Kind) -> (u64, Vec<Width>) {
    let Ok((figures, count)) = plan.figures(place as u64) else {
        return (0, Vec::new());
    };
    let workload = u64::from(figures.workload);
    let each = (1..).zip(figures.supply.into_iter().zip(figures.slice));
    let width = |(k, (supply, slice)): (u8, (u32, u8))| Width {
        k,
        asks: u64::from(k) * u64::from(kind.length) + workload,
        gets: u64::from(supply),
        slice,
    };
    (workload, each.map(width).take(count).collect())
}

/// The plan with a kind in the first place, at some length; the others keep their order behind it.
fn first(plan: &Plan, kind: usize, length: u16) -> Plan {
    let mut plan = *plan;
    if let Some(kinds) = plan.kind.get_mut(..=kind) {
        kinds.rotate_right(1);
        if let Some(kind) = kinds.first_mut() {
            kind.length = length;
        }
    }
    plan
}

/// The refusal of a plan's first kind, told of the place where it stood.
fn refusal(plan: &Plan, place: usize) -> Option<Answer> {
    let answer = plan.verdict().err()?;
    let place = u8::try_from(place).ok()?;
    (answer.number == 8 && answer.place == 0).then_some(Answer { place, ..answer })
}

#[cfg(test)]
mod tests {
    use super::*;
    use generate::Generator;
    use second::bytes::pack;
    use second::layout::h;
    use second::supply::supply_and_slice;
    use second::verdict::{asked_and_supplied, ceiling_of, excess, least_k, workload};

    /// What the library says, against the second program's own definitions.
    fn agree(plan: &second::Plan) {
        let (own, _) = Plan::read(&pack(plan)).unwrap();
        for figures in of(&own) {
            let i = figures.kind;
            let project = usize::from(plan.kinds[i].project);
            let held = h(plan, project);
            let deadline = u64::from(plan.kinds[i].deadline);
            assert_eq!(
                figures.workload,
                workload(plan, i),
                "W of kind {i} of {plan:?}"
            );
            assert_eq!(figures.widths.len() as u64, ceiling_of(plan, i));
            for width in &figures.widths {
                let k = u64::from(width.k);
                let sides = (width.asks, width.gets);
                assert_eq!(
                    sides,
                    asked_and_supplied(plan, i, k),
                    "kind {i}, k {k} of {plan:?}"
                );
                let slice = supply_and_slice(&held, k, deadline).1;
                assert_eq!(
                    u64::from(width.slice),
                    slice,
                    "slice of kind {i}, k {k} of {plan:?}"
                );
            }
            let fits = figures.fits.map(|place| figures.widths[place]);
            let fits = fits.map(|width| (u64::from(width.k), u64::from(width.slice)));
            assert_eq!(fits, least_k(plan, &held, i), "k of kind {i} of {plan:?}");
            assert_eq!(figures.refused.is_none(), fits.is_some());
            if let Some(answer) = figures.refused {
                let (number, slice) = excess(plan, &held, i);
                let told = (u64::from(answer.excess), u64::from(answer.slice));
                assert_eq!(told, (number, slice), "excess of kind {i} of {plan:?}");
                let shown = figures.shown().unwrap();
                if number < u64::from(plan.kinds[i].length) {
                    assert_eq!(u64::from(shown.slice), slice);
                }
            }
            let mut longer = plan.clone();
            longer.kinds[i].length = figures.longest;
            assert!(figures.longest == 0 || least_k(&longer, &held, i).is_some());
            longer.kinds[i].length = figures.longest + 1;
            assert!(
                figures.longest == plan.kinds[i].deadline || least_k(&longer, &held, i).is_none()
            );
        }
    }

    #[test]
    fn the_figures_are_those_of_the_rules() {
        agree(&second::Plan::a());
        agree(&second::Plan::b());
        let mut generator = Generator::new(23);
        for _ in 0..200 {
            agree(&generator.good_plan());
            agree(&generator.admitted_plan());
            agree(&generator.just_refused_plan());
        }
    }
}
