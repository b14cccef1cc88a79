//! The plan and the state as records, and their images: field after field without a gap, numbers of
//! more than one byte with the high byte first.

use crate::{
    calls, Answer, CHANGE_BYTES, FIGURES_BYTES, MOST_LIST_BYTES, MOST_PLAN_BYTES, MOST_TABLE_BYTES,
    PLAN_IMAGE, STATE_IMAGE, VERDICT_BYTES,
};

/// What an image is made of.
trait Part: Copy + Default {
    /// Its bytes.
    const BYTES: usize;

    /// Puts it at the front, which is as long as it.
    fn put(&self, bytes: &mut [u8]);

    /// Finds it at the front.
    fn of(bytes: &[u8]) -> Self;
}

macro_rules! numbers {
    ($($number:ty)*) => {$(
        impl Part for $number {
            const BYTES: usize = size_of::<$number>();

            fn put(&self, bytes: &mut [u8]) {
                bytes.copy_from_slice(&self.to_be_bytes());
            }

            fn of(bytes: &[u8]) -> Self {
                let mut own = [0; size_of::<$number>()];
                own.copy_from_slice(&bytes[..size_of::<$number>()]);
                <$number>::from_be_bytes(own)
            }
        }
    )*};
}

numbers!(u8 u16 u32);

impl<T: Part, const N: usize> Part for [T; N]
where
    [T; N]: Default,
{
    const BYTES: usize = N * T::BYTES;

    fn put(&self, bytes: &mut [u8]) {
        for (place, bytes) in self.iter().zip(bytes.chunks_exact_mut(T::BYTES)) {
            place.put(bytes);
        }
    }

    fn of(bytes: &[u8]) -> Self {
        let mut places = [T::default(); N];
        for (place, bytes) in places.iter_mut().zip(bytes.chunks_exact(T::BYTES)) {
            *place = T::of(bytes);
        }
        places
    }
}

/// Records whose fields stand in their images in the order of their lines.
macro_rules! records {
    ($(
        $(#[$about:meta])*
        pub struct $record:ident {
            $($(#[$of:meta])* pub $field:ident: $part:ty,)*
        }
    )*) => {$(
        $(#[$about])*
        #[derive(Clone, Copy, Debug, Default, PartialEq, Eq, Hash)]
        pub struct $record {
            $($(#[$of])* pub $field: $part,)*
        }

        impl Part for $record {
            const BYTES: usize = 0 $(+ <$part as Part>::BYTES)*;

            fn put(&self, bytes: &mut [u8]) {
                $(
                    let (own, bytes) = bytes.split_at_mut(<$part as Part>::BYTES);
                    self.$field.put(own);
                )*
                debug_assert!(bytes.is_empty());
            }

            fn of(bytes: &[u8]) -> Self {
                $(
                    let $field = <$part as Part>::of(bytes);
                    let bytes = &bytes[<$part as Part>::BYTES..];
                )*
                let _ = bytes;
                $record { $($field,)* }
            }
        }
    )*};
}

records! {
    /// A project's ceiling and budget.
    pub struct Project {
        /// The most cards at once.
        pub ceiling: u8,
        /// Cells in each frame.
        pub budget: u16,
    }

    /// A unit kind.
    pub struct Kind {
        /// The project that it names, from 0.
        pub project: u8,
        /// The slices from one release to the next, at least.
        pub separation: u16,
        /// The slices within which a unit is done.
        pub deadline: u16,
        /// The slices of a unit, at most.
        pub length: u16,
    }

    /// A plan; places beyond its projects and kinds hold zeros.
    pub struct Plan {
        /// How many cards.
        pub cards: u8,
        /// How many projects.
        pub projects: u8,
        /// How many unit kinds.
        pub kinds: u8,
        /// The slices of a frame.
        pub frame: u8,
        /// A place for each project.
        pub project: [Project; 8],
        /// A place for each unit kind.
        pub kind: [Kind; 16],
    }

    /// A kind's last unit.
    pub struct Unit {
        /// 1 if the kind was ever released, else 0.
        pub released: u8,
        /// The slices gone since its last accepted release, held at its separation.
        pub gone: u16,
        /// Slices left.
        pub left: u16,
    }

    /// What the verdict says of an admitted plan.
    pub struct Verdict {
        /// The least k of each kind; 0 beyond the plan's kinds.
        pub k: [u8; 16],
        /// The bad slice of the frame to arrive in, for that k.
        pub slice: [u8; 16],
    }

    /// What a kind asks and is given, in a plan that is admitted or not.
    pub struct Figures {
        /// W: what the other kinds of its project add up to.
        pub workload: u32,
        /// S(k,D) at place k - 1, for each k of 1 to its project's ceiling; 0 beyond.
        pub supply: [u32; 8],
        /// The bad slice of the frame to arrive in, for that k.
        pub slice: [u8; 8],
    }

    /// A change that a rescue made.
    pub struct Change {
        /// 1 to 3 spare bits of the header, of a project, of a kind; 4 a ceiling, 5 a budget, 6 a deadline, 7 a dropped kind.
        pub what: u8,
        /// The project or the kind, as it was numbered in the original.
        pub place: u8,
        /// What stood there.
        pub old_value: u16,
        /// What stands there now.
        pub new_value: u16,
    }

    /// A plan that runs.
    pub struct State {
        /// The plan.
        pub plan: Plan,
        /// The slice within the frame that is next.
        pub slice: u8,
        /// A place for each kind's unit.
        pub unit: [Unit; 16],
        /// What each project has left, summed over its kinds.
        pub sum: [u16; 8],
    }
}

// The records and the header agree on the sizes.
const _: () = assert!(Plan::BYTES == PLAN_IMAGE && State::BYTES == STATE_IMAGE);
const _: () = assert!(Verdict::BYTES == VERDICT_BYTES && Figures::BYTES == FIGURES_BYTES);
const _: () = assert!(Change::BYTES == CHANGE_BYTES);

/// What a call gives, or its refusal.
type Given<T> = Result<T, Answer>;

fn given<T>(answer: Answer, what: T) -> Given<T> {
    match answer.is_good() {
        true => Ok(what),
        false => Err(answer),
    }
}

impl Plan {
    /// The plan of an image.
    pub fn of_image(image: &[u8; PLAN_IMAGE]) -> Plan {
        Part::of(image)
    }

    /// The image of this plan.
    pub fn image(&self) -> [u8; PLAN_IMAGE] {
        let mut image = [0; PLAN_IMAGE];
        self.put(&mut image);
        image
    }

    /// The plan at the front of these bytes, and how many it took.
    pub fn read(bytes: &[u8]) -> Given<(Plan, usize)> {
        let mut image = [0; PLAN_IMAGE];
        let answer = calls::read(bytes, &mut image);
        given(answer, (Plan::of_image(&image), usize::from(answer.count)))
    }

    /// The plan of one-kind projects for so many cards and kinds of these separations and lengths.
    pub fn build(cards: u64, kinds: &[(u16, u16)]) -> Given<Plan> {
        let mut list = Vec::with_capacity(4 * kinds.len());
        for (separation, length) in kinds {
            list.extend(separation.to_be_bytes());
            list.extend(length.to_be_bytes());
        }
        let mut image = [0; PLAN_IMAGE];
        let answer = calls::build(cards, &list, &mut image);
        given(answer, Plan::of_image(&image))
    }

    /// The plan that damaged bytes are rescued to, which its budgets' sum may still keep out of order (7); and each change.
    pub fn rescue(bytes: &[u8]) -> Given<(Plan, Vec<Change>)> {
        let (mut image, mut list) = ([0; PLAN_IMAGE], [0; MOST_LIST_BYTES]);
        let answer = calls::rescue(bytes, &mut image, &mut list);
        let list = list[..usize::from(answer.count)].chunks_exact(CHANGE_BYTES);
        given(
            answer,
            (Plan::of_image(&image), list.map(Part::of).collect()),
        )
    }

    /// Whether it is in order.
    pub fn check(&self) -> Given<()> {
        given(calls::check(&self.image()), ())
    }

    /// Its bytes.
    pub fn bytes(&self) -> Given<Vec<u8>> {
        let mut out = vec![0; MOST_PLAN_BYTES];
        let answer = calls::write(&self.image(), &mut out);
        out.truncate(usize::from(answer.count));
        given(answer, out)
    }

    /// Its slot table.
    pub fn slots(&self) -> Given<Vec<u8>> {
        let mut out = vec![0; MOST_TABLE_BYTES];
        let answer = calls::slot_table(&self.image(), &mut out);
        out.truncate(usize::from(answer.count));
        given(answer, out)
    }

    /// The least k of each kind, and the slice beside it.
    pub fn verdict(&self) -> Given<Verdict> {
        let mut k = [0; VERDICT_BYTES];
        let answer = calls::verdict(&self.image(), &mut k);
        given(answer, Part::of(&k))
    }

    /// The figures of one of its kinds, whether it is admitted or not, and how many k there are.
    pub fn figures(&self, kind: u64) -> Given<(Figures, usize)> {
        let mut out = [0; FIGURES_BYTES];
        let answer = calls::figures(&self.image(), kind, &mut out);
        given(answer, (Part::of(&out), usize::from(answer.count)))
    }

    /// The smallest budget of one of its projects, whose stored budget is not looked at.
    pub fn smallest_budget(&self, project: u64) -> Given<u16> {
        let answer = calls::smallest_budget(&self.image(), project);
        given(answer, answer.count)
    }

    /// Its fresh state.
    pub fn fresh(&self) -> Given<State> {
        let mut image = [0; STATE_IMAGE];
        let answer = calls::fresh(&self.image(), &mut image);
        given(answer, State::of_image(&image))
    }
}

impl State {
    /// The state of an image.
    pub fn of_image(image: &[u8; STATE_IMAGE]) -> State {
        Part::of(image)
    }

    /// The image of this state.
    pub fn image(&self) -> [u8; STATE_IMAGE] {
        let mut image = [0; STATE_IMAGE];
        self.put(&mut image);
        image
    }

    /// Releases a unit of a kind with a length.
    pub fn release(&mut self, kind: u64, e: u64) -> Given<()> {
        let mut image = self.image();
        let answer = calls::release(&mut image, kind, e);
        *self = State::of_image(&image);
        given(answer, ())
    }

    /// Shows the row of the next slice.
    pub fn show(&self, row: &mut [u8]) -> Given<()> {
        given(calls::show(&self.image(), row), ())
    }

    /// Runs a slice.
    pub fn advance(&mut self) -> Given<()> {
        let mut image = self.image();
        let answer = calls::advance(&mut image);
        *self = State::of_image(&image);
        given(answer, ())
    }
}
