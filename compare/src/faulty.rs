//! A copy of the second program with one rule altered, to show that the comparison can fail.
//!
//! It stands where the proved side stands. Most faults are errors that look right, of document 01's
//! own list or near it; the rest are about orders, buffers and images. Without a fault the copy must
//! agree with the second program, so that a fault is found for what it is.

use crate::interface::{
    number, plan_image, plan_of, refused, state_image, word, Op, Side, FIGURES_BYTES, PLAN_IMAGE,
    STATE_IMAGE, SUMS_AT, UNIT, UNITS_AT, VERDICT_BYTES,
};
use crate::second_side::{figures_bytes, state_or_refuse, Second};
use second::layout::{cards_held, cells, h, h_of_cells};
use second::one_kind::listed;
use second::plan::budgets_sum_above;
use second::play::{command, Command};
use second::rack::{a_stored_sum_differs, sum_of_what_is_left};
use second::supply::supply_and_slice;
use second::verdict::{ceiling_of, excess, least_k, workload};
use second::{Answer, Plan, State};
use std::cell::Cell;
use std::io::{self, Read, Write};
use std::ops::ControlFlow::{self, Break, Continue};

/// One rule altered.
#[derive(Clone, Copy, Debug, PartialEq, Eq)]
#[allow(missing_docs)]
pub enum Fault {
    Faultless,
    SumFirst,
    FiveFirst,
    UnusedPlace,
    SpareBit,
    WriteJudges,
    CutOff,
    OwnKind,
    FrameStart,
    Average,
    OnlyTop,
    ExcessAtTop,
    Ties,
    RankByD,
    TwoCards,
    Rotated,
    FirstFrame,
    ServesNone,
    Early,
    ExactlyT,
    FifteenFirst,
    LowByte,
    ReleasedByte,
    ShortImage,
    NineFirst,
    PastNeeded,
    RefusalClears,
    NoCount,
    OpenOneMore,
    OpenOneLess,
    OpenKindless,
    OpenJudgesAll,
    OpenBudget,
    OpenCeiling,
    OpenEarly27,
    OpenLate27,
    OpenLowByte,
    OpenPlace,
    OpenExcess,
    OpenSevenFirst,
    OpenStoredSum,
    SliceLatest,
    SliceBeyond,
    SliceFromCell0,
    SliceOfTop,
    SliceOfLast,
    SliceGreaterK,
    SliceStands,
    SliceBeyondN,
    ExcessOld,
    ExcessRounded,
    ExcessGreatest,
    ExcessZeroAsNone,
    ExcessNoneLess,
    BuildRoundsDown,
    BuildCeiling,
    BuildLeastSeparation,
    BuildFirstTwo,
    BuildSixtyFour,
    BuildEight,
    BuildSevenFirst,
    BuildDeadline,
    BuildLastProject,
    BuildLowByte,
    BuildCutOff,
    BuildSixPlace,
    BuildNineFirst,
    FiguresAdmitted,
    FiguresPastQ,
    FiguresFromNone,
    FiguresAllKinds,
    FiguresLowByte,
    FiguresTwelveFirst,
    FiguresNineFirst,
    FiguresNoCount,
    PlayEnd,
    PlayLeftOver,
    PlayClock,
    PlaySliceBits,
    PlayLowBits,
    PlayRefused,
    PlayStops,
    PlayReadEnd,
    PlayGoesOn,
    PlayEndClock,
    ShowKeepsIdle,
    AdvanceRemembers,
    PlayRowAfter,
    GoneUnheld,
    GoneHeldAtD,
    GoneNever,
    ReleaseKeepsGone,
    RankByGone,
    RankOthersGone,
    SliceUnwrapped,
    FormLate,
    FormAtT,
    FormBeyondT,
    FormNever,
    FormSliceF,
    Eleven,
    SumNotRaised,
    SumRaisedByLength,
    SumNotLowered,
    SumLoweredByHeld,
    SumOfAll,
    SumAtMost,
    SumLowByte,
    SumBeyond,
    SumRepaired,
    SumRepairedBySixteen,
    SumBytes,
    SixteenFirst,
    SixteenInShow,
    SixteenAfterNine,
    SixteenAfterTwelve,
    SixteenPlace,
    RescueOldCeiling,
    RescueLateDeadline,
    RescueDroppedSpare,
    RescueDroppedDeadline,
    RescueDroppedValue,
    RescuePlaceInResult,
    RescueKindsFirst,
    RescueSpareBeside,
    RescueLowByte,
    RescueUnchanged,
    RescueHeaderSpare,
    RescueCeilingOne,
    RescueBudgetOne,
    RescueProjectAtP,
    RescueKindsCounted,
    RescueHole,
    RescueSeven,
    RescueNoTwenty,
    RescueNineFirst,
    RescueCutList,
    RescuePlanFirst,
    RescueEntries,
}

use Fault::*;

/// Each fault that records must show: its name and what it is.
pub const RECORD_FAULTS: [(Fault, &str, &str); 125] = [
    (SumFirst, "sum-first", "7 is told before 4"),
    (FiveFirst, "five-first", "all kinds for 5 before any 6"),
    (
        UnusedPlace,
        "unused-place",
        "the length in an unused place is not looked at",
    ),
    (SpareBit, "spare-bit", "the last spare bit is not looked at"),
    (WriteJudges, "write-judges", "writing plan bytes adds 8"),
    (CutOff, "cut-off", "W without the cut-off unit"),
    (OwnKind, "own-kind", "W with kind i's own part"),
    (
        FrameStart,
        "frame-start",
        "supply from the frame's start only",
    ),
    (Average, "average", "supply as floor(Bt/F)"),
    (OnlyTop, "only-top", "only k = q is counted"),
    (ExcessAtTop, "excess-at-top", "the excess at q alone"),
    (Ties, "ties", "a tie goes to the higher kind number"),
    (
        RankByD,
        "rank-by-d",
        "ranked by D, not by slices left until the deadline",
    ),
    (
        TwoCards,
        "two-cards",
        "a unit is given two cards in a slice",
    ),
    (
        ServesNone,
        "serves-none",
        "the slice moves, no one is served",
    ),
    (Early, "early", "a release at T-1 passes"),
    (ExactlyT, "exactly-t", "a release at exactly T gives 14"),
    (
        FifteenFirst,
        "fifteen-first",
        "15 is told of a kind with work left",
    ),
    (Eleven, "eleven", "11 is told in the frame's last slice"),
    (GoneUnheld, "gone-unheld", "what is gone is not held at T"),
    (GoneHeldAtD, "gone-held-at-d", "what is gone is held at D"),
    (
        GoneNever,
        "gone-never",
        "what is gone is raised for a kind never released",
    ),
    (
        ReleaseKeepsGone,
        "release-gone",
        "a release leaves what is gone as it was",
    ),
    (RankByGone, "rank-by-gone", "ranked by slices gone"),
    (
        RankOthersGone,
        "rank-others-gone",
        "ranked by D less what is gone of the next kind",
    ),
    (
        SliceUnwrapped,
        "slice-unwrapped",
        "behind the last slice of a frame comes slice F",
    ),
    (FormLate, "form-late", "work left with D gone passes"),
    (FormAtT, "form-at-t", "just T gone is out of form"),
    (FormBeyondT, "form-beyond-t", "one more than T gone passes"),
    (
        FormNever,
        "form-never",
        "what is gone of a kind never released is not looked at",
    ),
    (FormSliceF, "form-slice-f", "slice F passes for slice 0"),
    (
        LowByte,
        "low-byte",
        "only the low byte of a kind is looked at",
    ),
    (
        ReleasedByte,
        "released-byte",
        "a released byte of 2 or more is taken for 1",
    ),
    (
        ShortImage,
        "short-image",
        "an image one byte short is taken as if it ended in 0",
    ),
    (
        NineFirst,
        "nine-first",
        "the verdict tells a short k before 8",
    ),
    (
        PastNeeded,
        "past-needed",
        "bytes past those needed are cleared",
    ),
    (
        RefusalClears,
        "refusal-clears",
        "a refusal clears the lent buffer",
    ),
    (NoCount, "no-count", "the slot table's count is 0"),
    (
        OpenOneMore,
        "open-one-more",
        "the smallest budget one too large",
    ),
    (
        OpenOneLess,
        "open-one-less",
        "the smallest budget one too small",
    ),
    (
        OpenKindless,
        "open-kindless",
        "a project with no kinds needs no cell",
    ),
    (
        OpenJudgesAll,
        "open-judges-all",
        "the smallest budget judges every project's kinds",
    ),
    (
        OpenBudget,
        "open-budget",
        "4 looks at the open budget as well",
    ),
    (
        OpenCeiling,
        "open-ceiling",
        "4 passes the open project's ceiling by",
    ),
    (OpenEarly27, "open-27-early", "27 is told before 3"),
    (OpenLate27, "open-27-late", "27 is told after 4"),
    (
        OpenLowByte,
        "open-low-byte",
        "only the low byte of a project is looked at",
    ),
    (
        OpenPlace,
        "open-place",
        "8's place is counted within the open project",
    ),
    (
        OpenExcess,
        "open-excess",
        "8's excess is that at the stored budget",
    ),
    (
        OpenSevenFirst,
        "open-seven-first",
        "the smallest budget tells 7 before 8",
    ),
    (
        OpenStoredSum,
        "open-stored-sum",
        "the smallest budget sums the stored budgets",
    ),
    (
        SliceLatest,
        "slice-latest",
        "the latest slice that attains the supply",
    ),
    (
        SliceBeyond,
        "slice-beyond",
        "a slice told as that of the next frame",
    ),
    (
        SliceFromCell0,
        "slice-from-0",
        "the slice as if laid from cell 0",
    ),
    (
        SliceOfTop,
        "slice-of-top",
        "the slice of k = q, not of the k it names",
    ),
    (
        SliceOfLast,
        "slice-of-last",
        "the slice of the last kind for all kinds",
    ),
    (
        SliceGreaterK,
        "slice-greater-k",
        "the slice of the greatest k that allows C'",
    ),
    (
        SliceStands,
        "slice-stands",
        "a slice left standing beside 9",
    ),
    (
        SliceBeyondN,
        "slice-beyond-n",
        "a slice beside a k of 0 beyond n",
    ),
    (
        ExcessOld,
        "excess-old",
        "the excess as the least of kC + W - S(k,D)",
    ),
    (
        ExcessRounded,
        "excess-rounded",
        "the excess with a division rounded up",
    ),
    (
        ExcessGreatest,
        "excess-greatest",
        "the greatest excess over k, not the least",
    ),
    (
        ExcessZeroAsNone,
        "excess-0-as-none",
        "C' of 0 is taken for none",
    ),
    (
        ExcessNoneLess,
        "excess-none-less",
        "an excess of C - 1 where there is no C'",
    ),
    (
        ShowKeepsIdle,
        "show-keeps-idle",
        "an idle card's byte stays as it was",
    ),
    (
        AdvanceRemembers,
        "remembers",
        "an advance runs what was shown last",
    ),
    (
        BuildRoundsDown,
        "build-rounds-down",
        "a built budget is rounded down",
    ),
    (
        BuildCeiling,
        "build-ceiling",
        "a built project has ceiling 2",
    ),
    (
        BuildLeastSeparation,
        "build-least-separation",
        "the built frame is the least separation",
    ),
    (
        BuildFirstTwo,
        "build-first-two",
        "the divisor of the first two separations only",
    ),
    (BuildSixtyFour, "build-64", "19 is told for 64"),
    (BuildEight, "build-eight", "18 is told for eight kinds"),
    (BuildSevenFirst, "build-seven-first", "7 is told before 19"),
    (
        BuildDeadline,
        "build-deadline",
        "a built kind's deadline is one below its separation",
    ),
    (
        BuildLastProject,
        "build-last-project",
        "the last kind built is of the project before it",
    ),
    (
        BuildLowByte,
        "build-low-byte",
        "only the low byte of the cards is looked at",
    ),
    (
        BuildCutOff,
        "build-cut-off",
        "bytes behind the last whole kind are passed by",
    ),
    (BuildSixPlace, "build-six-place", "6 has no place"),
    (
        BuildNineFirst,
        "build-nine-first",
        "a short plan is told before 7",
    ),
    (
        SumNotRaised,
        "sum-not-raised",
        "a release leaves the sum as it was",
    ),
    (
        SumRaisedByLength,
        "sum-raised-by-c",
        "a release raises the sum by C",
    ),
    (
        SumNotLowered,
        "sum-not-lowered",
        "an advance leaves the sums as they were",
    ),
    (
        SumLoweredByHeld,
        "sum-by-held",
        "an advance lowers a sum by the cards held",
    ),
    (
        SumOfAll,
        "sum-of-all",
        "only the sum of all projects is compared",
    ),
    (SumAtMost, "sum-at-most", "a sum that is too small passes"),
    (
        SumLowByte,
        "sum-low-byte",
        "only the low byte of a sum is compared",
    ),
    (
        SumBeyond,
        "sum-beyond",
        "the sums beyond p are not looked at",
    ),
    (
        SumRepaired,
        "sum-repaired",
        "a release puts a sum right instead of telling 16",
    ),
    (
        SumRepairedBySixteen,
        "sum-put-right",
        "16 is told, and the sums given back are put right",
    ),
    (
        SumBytes,
        "sum-bytes",
        "a sum's low byte stands first in the image",
    ),
    (SixteenFirst, "sixteen-first", "16 is told before 10"),
    (SixteenInShow, "sixteen-in-show", "16 is told by show alone"),
    (SixteenAfterNine, "sixteen-after-9", "16 is told after 9"),
    (
        SixteenAfterTwelve,
        "sixteen-after-12",
        "16 is told after 12",
    ),
    (
        SixteenPlace,
        "sixteen-place",
        "16 has the first such project for its place",
    ),
    (
        FiguresAdmitted,
        "figures-admitted",
        "figures of admitted plans only",
    ),
    (
        FiguresPastQ,
        "figures-past-q",
        "figures of each k of 1..8, past the ceiling",
    ),
    (
        FiguresFromNone,
        "figures-from-0",
        "figures of the k from 0 on",
    ),
    (
        FiguresAllKinds,
        "figures-all-kinds",
        "a figure W of the other projects' kinds too",
    ),
    (
        FiguresLowByte,
        "figures-low-byte",
        "figures by the low byte of a kind",
    ),
    (
        FiguresTwelveFirst,
        "figures-12-first",
        "figures tell 12 before the record order",
    ),
    (
        FiguresNineFirst,
        "figures-9-first",
        "figures tell a short buffer before 12",
    ),
    (
        FiguresNoCount,
        "figures-no-count",
        "figures with a count of 0",
    ),
    (
        RescueOldCeiling,
        "rescue-old-q",
        "a rescue judges B with the old q",
    ),
    (
        RescueLateDeadline,
        "rescue-late-d",
        "a rescue judges C before D is lowered",
    ),
    (
        RescueDroppedSpare,
        "rescue-7-spare",
        "the spare bit of a dropped kind is listed",
    ),
    (
        RescueDroppedDeadline,
        "rescue-7-d",
        "the lowered D of a dropped kind is listed",
    ),
    (
        RescueDroppedValue,
        "rescue-7-value",
        "a dropped kind's entry has its C for the old value",
    ),
    (
        RescuePlaceInResult,
        "rescue-place",
        "a kind's place is that in the result",
    ),
    (
        RescueKindsFirst,
        "rescue-by-kind",
        "D and dropped kinds are listed before q and B",
    ),
    (
        RescueSpareBeside,
        "rescue-beside",
        "a project's spare bits are listed beside its q and B",
    ),
    (
        RescueLowByte,
        "rescue-low-byte",
        "a value's low byte is listed first",
    ),
    (
        RescueUnchanged,
        "rescue-unchanged",
        "a D of just T is listed",
    ),
    (
        RescueHeaderSpare,
        "rescue-header",
        "the header's spare bits are passed by",
    ),
    (
        RescueCeilingOne,
        "rescue-q-one",
        "a q above m is lowered to 1",
    ),
    (
        RescueBudgetOne,
        "rescue-b-one",
        "a B above qF is lowered to 1",
    ),
    (
        RescueProjectAtP,
        "rescue-project-p",
        "a kind of project p is kept",
    ),
    (
        RescueKindsCounted,
        "rescue-n",
        "the count of kinds is not lowered",
    ),
    (RescueHole, "rescue-hole", "later kinds do not move up"),
    (RescueSeven, "rescue-seven", "a rescue refuses 7"),
    (
        RescueNoTwenty,
        "rescue-no-20",
        "a plan without kinds is given instead of 20",
    ),
    (
        RescueNineFirst,
        "rescue-9-first",
        "a short list is told before 20",
    ),
    (
        RescueCutList,
        "rescue-cut-list",
        "the entries that fit are written beside 9",
    ),
    (
        RescuePlanFirst,
        "rescue-9-plan",
        "the plan is written beside 9",
    ),
    (
        RescueEntries,
        "rescue-entries",
        "the count is that of the entries",
    ),
];

/// Each fault that streams must show.
pub const STREAM_FAULTS: [(Fault, &str, &str); 17] = [
    (PlayEnd, "play-end", "no end line after a bad command"),
    (
        PlayLeftOver,
        "play-left-over",
        "one or two bytes left over are passed by",
    ),
    (
        PlayClock,
        "play-clock",
        "the slice after the advance is printed",
    ),
    (
        PlayEndClock,
        "play-end-clock",
        "the last line tells all slices run",
    ),
    (Rotated, "rotated", "the layout rotates between frames"),
    (
        FirstFrame,
        "first-frame",
        "after the first frame what is left does not fall",
    ),
    (
        PlaySliceBits,
        "play-slice-bits",
        "the e of a slice is not looked at",
    ),
    (
        PlayLowBits,
        "play-low-bits",
        "the seven low bits of a release are not looked at",
    ),
    (
        PlayRefused,
        "play-refused",
        "an end line after a refused plan",
    ),
    (PlayStops, "play-stops", "silent after 45000 lines"),
    (
        PlayReadEnd,
        "play-read-end",
        "a failed read is taken for the end of the input",
    ),
    (
        PlayGoesOn,
        "play-goes-on",
        "an output that fails is not noticed",
    ),
    (
        PlayRowAfter,
        "play-row-after",
        "the row shown after the slice is printed",
    ),
    (Ties, "ties", "a tie goes to the higher kind number"),
    (CutOff, "cut-off", "W without the cut-off unit"),
    (Early, "early", "a release at T-1 passes"),
    (GoneHeldAtD, "gone-held-at-d", "what is gone is held at D"),
];

/// The fault of this name, `none` included.
pub fn named(name: &str) -> Option<Fault> {
    if name == "none" {
        return Some(Faultless);
    }
    RECORD_FAULTS
        .iter()
        .chain(&STREAM_FAULTS)
        .find(|fault| fault.1 == name)
        .map(|fault| fault.0)
}

/// The second program with this fault.
#[derive(Clone, Copy, Debug)]
pub struct Faulty(pub Fault);

thread_local! {
    /// What was shown last and not advanced since, for a copy that remembers it.
    static SHOWN: Cell<Option<Vec<(usize, usize)>>> = const { Cell::new(None) };

    /// The slices that a player has run, for a copy that counts them; no state tells.
    static RUN: Cell<u64> = const { Cell::new(0) };
}

impl Faulty {
    fn is(&self, fault: Fault) -> bool {
        self.0 == fault
    }

    /// An image as this copy sees it.
    fn seen(&self, image: &[u8], size: usize) -> Vec<u8> {
        let mut seen = image.to_vec();
        if self.is(ShortImage) && seen.len() + 1 == size {
            seen.push(0);
        }
        if seen.len() < size {
            return seen;
        }
        if self.is(UnusedPlace) {
            let mut plan = plan_of(&seen);
            for place in plan.kinds.iter_mut().skip(usize::from(plan.n)) {
                place.length = 0;
            }
            seen[..PLAN_IMAGE].copy_from_slice(&plan_image(&plan));
        }
        if self.is(ReleasedByte) && size == STATE_IMAGE {
            for place in 0..16 {
                let released = &mut seen[UNITS_AT + UNIT * place];
                *released = (*released).min(1);
            }
        }
        if size == STATE_IMAGE {
            self.turn_sums(&mut seen);
        }
        seen
    }

    /// The bytes of the sums in the order in which this copy has them.
    fn turn_sums(&self, image: &mut [u8]) {
        if self.is(SumBytes) {
            for sum in image[SUMS_AT..STATE_IMAGE].chunks_exact_mut(2) {
                sum.swap(0, 1);
            }
        }
    }

    /// Whether a function of this copy takes the stored sums for those of what is left.
    fn passes_sums(&self, op: Op, state: &State) -> bool {
        let below = 0..usize::from(state.plan.p).min(8);
        let mut pairs = below.map(|project| {
            let stored = u64::from(state.sums[project]);
            (stored, sum_of_what_is_left(state, project))
        });
        match self.0 {
            SumOfAll => {
                let (stored, left): (Vec<_>, Vec<_>) = pairs.unzip();
                stored.iter().sum::<u64>() == left.iter().sum()
            }
            SumAtMost => pairs.all(|(stored, left)| stored <= left),
            SumLowByte => pairs.all(|(stored, left)| stored % 256 == left % 256),
            SumRepaired => op == Op::Release,
            SixteenInShow => op != Op::Show,
            _ => false,
        }
    }

    /// A state as this copy sees it, where its form passes what is out of form.
    fn formed(&self, state: &State) -> State {
        let mut seen = *state;
        for (place, kind) in seen.kinds.iter_mut().zip(state.plan.used_kinds()) {
            let (t, d) = (kind.separation, kind.deadline);
            match self.0 {
                FormLate if place.left > 0 && place.gone == d => place.gone = d.max(1) - 1,
                FormBeyondT if place.gone > t && place.gone - t == 1 => place.gone = t,
                FormNever if !place.released => place.gone = 0,
                _ => {}
            }
        }
        if self.is(FormSliceF) && state.slice == state.plan.frame {
            seen.slice = 0;
        }
        seen
    }

    /// Whether this copy's form refuses what is in form.
    fn refuses_form(&self, state: &State) -> bool {
        let mut kinds = state.kinds.iter().zip(state.plan.used_kinds());
        self.is(FormAtT) && kinds.any(|(place, kind)| place.gone == kind.separation)
    }

    /// A function on a state, by this copy's rules about the form and the sums.
    fn summed(
        &self,
        op: Op,
        state: &State,
        call: impl FnOnce(&State) -> (Answer, State),
    ) -> (Answer, State) {
        let mut seen = self.formed(state);
        let p = usize::from(state.plan.p).min(8);
        if self.is(SumBeyond) {
            seen.sums[p..].fill(0);
        }
        // What is beyond p is looked at all the same.
        if self.passes_sums(op, state) {
            seen = seen.summed();
            seen.sums[p..].copy_from_slice(&state.sums[p..]);
        }
        let (mut answer, mut next) = call(&seen);
        if matches!(answer.number, 0 | 9..) && self.refuses_form(state) {
            return (Answer::refused(10), *state);
        }
        match (self.0, answer.number) {
            (SixteenFirst, 10) if a_stored_sum_differs(state) => answer.number = 16,
            (SixteenPlace, 16) => {
                let differs = |&project: &usize| {
                    u64::from(state.sums[project]) != sum_of_what_is_left(state, project)
                };
                answer.place = (0..8).find(differs).unwrap_or(0) as u64;
            }
            _ => {}
        }
        // The stored sums are raised and lowered, not put right.
        if !self.is(SumRepaired) {
            for (place, sum) in next.sums.iter_mut().enumerate() {
                let moved = sum.wrapping_sub(seen.sums[place]);
                *sum = state.sums[place].wrapping_add(moved);
            }
        }
        (answer, next)
    }

    /// A refusal by the record order, with this copy's order.
    fn order(&self, plan: &Plan, word_before: u64) -> u64 {
        if self.is(SumFirst) && number(word_before) == 4 && budgets_sum_above(plan) {
            return refused(7);
        }
        if self.is(FiveFirst) && number(word_before) == 6 {
            let kinds = plan.used_kinds();
            if let Some(place) = kinds.iter().position(|kind| kind.project >= plan.p) {
                return word(Answer::refused_at(5, place), 0);
            }
        }
        word_before
    }

    /// A function on a plan image, with this copy's image and order.
    fn on_plan(&self, plan: &[u8], call: impl FnOnce(&[u8]) -> u64) -> u64 {
        let seen = self.seen(plan, PLAN_IMAGE);
        let word = call(&seen);
        match seen.len() {
            PLAN_IMAGE.. => self.order(&plan_of(&seen), word),
            _ => word,
        }
    }

    /// What this copy does to a lent buffer after the call.
    fn after(&self, word: u64, lent: &mut [u8], needed: usize) -> u64 {
        if self.is(RefusalClears) && number(word) != 0 {
            lent.fill(0);
        }
        if self.is(PastNeeded) && number(word) == 0 {
            lent[needed..].fill(0);
        }
        word
    }

    /// A function on a state image, changed in place when this copy's answer is good.
    fn on_state(
        &self,
        op: Op,
        image: &mut [u8],
        call: impl FnOnce(&State) -> (Answer, State),
    ) -> u64 {
        let seen = self.seen(image, STATE_IMAGE);
        match state_or_refuse(&seen) {
            Ok(state) => {
                let (answer, mut next) = self.summed(op, &state, call);
                let word = self.order(&state.plan, word(answer, 0));
                let repairs = self.is(SumRepairedBySixteen) && number(word) == 16;
                if repairs {
                    next = state.summed();
                }
                if number(word) == 0 || repairs {
                    let mut after = state_image(&next);
                    self.turn_sums(&mut after);
                    let count = image.len().min(STATE_IMAGE);
                    image[..count].copy_from_slice(&after[..count]);
                }
                word
            }
            Err(word) => match seen.len() {
                STATE_IMAGE.. => self.order(&plan_of(&seen), word),
                _ => word,
            },
        }
    }

    /// The supply, and the slice beside it.
    fn supply(&self, plan: &Plan, project: usize, k: u64, t: u64) -> (u64, u64) {
        let held = h(plan, project);
        let frame = held.len() as u64;
        let (supply, slice) = supply_and_slice(&held, k, t);
        let from = |a: u64| (a..a + t).map(|s| held[(s % frame) as usize].min(k));
        match self.0 {
            FrameStart => (from(0).sum(), 0),
            Average => (
                held.iter().map(|h| h.min(&k)).sum::<u64>() * t / frame,
                slice,
            ),
            SliceLatest => {
                let latest = (0..frame).rfind(|&a| from(a).sum::<u64>() == supply);
                (supply, latest.unwrap_or(0))
            }
            SliceBeyond if slice > 0 => (supply, slice + frame),
            SliceFromCell0 => {
                let moved = h_of_cells(plan.frame, 0, held.iter().sum());
                supply_and_slice(&moved, k, t)
            }
            _ => (supply, slice),
        }
    }

    fn workload(&self, plan: &Plan, i: usize) -> u64 {
        let kinds = plan.used_kinds();
        let d = kinds[i].deadline;
        let part = |j: usize| {
            let (t, c) = (kinds[j].separation, kinds[j].length);
            (u64::from(d / t * c), u64::from(c.min(d % t)))
        };
        let w = workload(plan, i);
        match self.0 {
            OwnKind => w + part(i).0 + part(i).1,
            CutOff => (0..kinds.len())
                .filter(|&j| j != i && kinds[j].project == kinds[i].project)
                .map(|j| part(j).0)
                .sum(),
            _ => w,
        }
    }

    fn judge(&self, plan: &Plan) -> (Answer, [u8; VERDICT_BYTES]) {
        let mut found = [0; VERDICT_BYTES];
        let answer = second::check(plan);
        if !answer.is_good() {
            return (answer, found);
        }
        for (i, kind) in plan.used_kinds().iter().enumerate() {
            let w = self.workload(plan, i);
            let d = u64::from(kind.deadline);
            let supply = |k| self.supply(plan, usize::from(kind.project), k, d);
            let over = |k: u64| (k * u64::from(kind.length) + w).saturating_sub(supply(k).0);
            let q = ceiling_of(plan, i);
            let slice = |k| match self.0 {
                SliceOfTop => supply(q).1,
                _ => supply(k).1,
            };
            let first = if self.is(OnlyTop) { q } else { 1 };
            match (first..=q).find(|&k| over(k) == 0) {
                Some(k) => {
                    found[i] = k as u8;
                    found[16 + i] = slice(k) as u8;
                }
                None => {
                    let from = if self.is(ExcessAtTop) { q } else { first };
                    let c = u64::from(kind.length);
                    // The length that each k allows, 1 too many for each so that 0 is none.
                    let allowed = |k: u64| match supply(k).0.checked_sub(w) {
                        Some(room) if self.is(ExcessRounded) => room.div_ceil(k).min(c - 1) + 1,
                        Some(room) if self.is(ExcessZeroAsNone) && room < k => 0,
                        Some(room) => room / k + 1,
                        None => 0,
                    };
                    let k = match self.0 {
                        ExcessOld => (from..=q).min_by_key(|&k| over(k)),
                        ExcessGreatest => (from..=q).min_by_key(|&k| allowed(k)),
                        // The last of several is the greatest.
                        SliceGreaterK => (from..=q).max_by_key(|&k| allowed(k)),
                        _ => (from..=q).rev().max_by_key(|&k| allowed(k)),
                    };
                    let k = k.unwrap_or(q);
                    let (excess, slice) = match allowed(k) {
                        _ if self.is(ExcessOld) => (over(k), slice(k)),
                        0 if self.is(ExcessNoneLess) => (c - 1, 0),
                        0 => (c, 0),
                        more => (c + 1 - more, slice(k)),
                    };
                    let answer = Answer::not_admitted(i, excess, slice);
                    return (answer, [0; VERDICT_BYTES]);
                }
            }
        }
        let n = usize::from(plan.n);
        let last = found[15 + n];
        match self.0 {
            SliceOfLast => found[16..16 + n].fill(last),
            SliceBeyondN => found[16 + n..].fill(last),
            _ => {}
        }
        (Answer::GOOD, found)
    }

    /// The smallest budget, found by halving.
    fn opened(&self, plan: &Plan, project: u64) -> (Answer, u64) {
        let project = match self.0 {
            OpenLowByte => project % 256,
            _ => project,
        };
        let absent = project >= u64::from(plan.p.min(8));
        // With one cell for the open project the record order is that of the call, but for 7.
        let mut tried = *plan;
        if let (false, Some(place)) = (absent, tried.projects.get_mut(project as usize)) {
            if !self.is(OpenBudget) {
                place.budget = 1;
            }
            if self.is(OpenCeiling) {
                place.ceiling = place.ceiling.clamp(1, plan.m.max(1));
            }
        }
        let order = second::check(&tried);
        let before_27 = match self.0 {
            OpenEarly27 => order.number == 2,
            OpenLate27 => !matches!(order.number, 0 | 7),
            _ => matches!(order.number, 2 | 3),
        };
        if absent && !before_27 {
            return (Answer::refused(27), 0);
        }
        if !matches!(order.number, 0 | 7) {
            return (order, 0);
        }

        let (open, judged) = (project as usize, tried);
        let stored = plan.projects[open].budget;
        let before = plan.projects[..open].iter();
        let first: u64 = before.map(|place| u64::from(place.budget)).sum();
        let held = |b: u64| h_of_cells(plan.frame, first, b);
        let own = |i: &usize| usize::from(plan.kinds[*i].project) == open;
        let own: Vec<usize> = (0..usize::from(plan.n)).filter(own).collect();
        let unfit = |b: u64| {
            let held = held(b);
            let unfit = own.iter().find(|&&i| least_k(&judged, &held, i).is_none());
            unfit.copied()
        };
        if self.is(OpenJudgesAll) {
            let told = second::verdict(&tried).0;
            if told.number == 8 && !own.contains(&(told.place as usize)) {
                return (told, 0);
            }
        }
        let (mut below, mut least) = (
            0,
            u64::from(tried.projects[open].ceiling) * u64::from(plan.frame),
        );
        tried.projects[open].budget = least as u16;
        if let Some(i) = unfit(least) {
            if self.is(OpenSevenFirst) && budgets_sum_above(&tried) {
                return (Answer::refused(7), 0);
            }
            let at = match self.0 {
                OpenExcess => u64::from(stored).min(least),
                _ => least,
            };
            let place = match self.0 {
                OpenPlace => own.iter().position(|&one| one == i).unwrap_or(0),
                _ => i,
            };
            let (excess, slice) = excess(plan, &held(at), i);
            return (Answer::not_admitted(place, excess, slice), 0);
        }
        while least - below > 1 {
            let half = (below + least) / 2;
            match unfit(half) {
                Some(_) => below = half,
                None => least = half,
            }
        }
        tried.projects[open].budget = match self.0 {
            OpenStoredSum => stored,
            _ => least as u16,
        };
        if budgets_sum_above(&tried) {
            return (Answer::refused(7), 0);
        }
        let told = match self.0 {
            OpenOneMore => least + 1,
            OpenOneLess => least.max(2) - 1,
            OpenKindless if own.is_empty() => 0,
            _ => least,
        };
        (Answer::GOOD, told)
    }

    /// A plan of one-kind projects, its divisor by remainders.
    fn built(&self, cards: u64, bytes: &[u8]) -> (Answer, Plan) {
        let refused = |number| (Answer::refused(number), Plan::default());
        let m = match self.0 {
            BuildLowByte => cards % 256,
            _ => cards,
        };
        let whole = match self.0 {
            BuildCutOff => bytes.len() - bytes.len() % 4,
            _ => bytes.len(),
        };
        let list = listed(&bytes[..whole]);
        if !(1..=8).contains(&m) || list.is_empty() {
            return refused(17);
        }
        let most = if self.is(BuildEight) { 7 } else { 8 };
        if list.len() > most {
            return refused(18);
        }
        let untimed = |&(t, c): &(u16, u16)| c == 0 || c > t || t > 4095;
        if let Some(place) = list.iter().position(untimed) {
            let place = if self.is(BuildSixPlace) { 0 } else { place };
            return (Answer::refused_at(6, place), Plan::default());
        }
        let counted = if self.is(BuildFirstTwo) { 2 } else { 8 };
        let divisor = |mut a: u64, mut b: u64| {
            while b > 0 {
                (a, b) = (b, a % b);
            }
            a
        };
        let separations = list.iter().take(counted).map(|&(t, _)| u64::from(t));
        let frame = match self.0 {
            BuildLeastSeparation => separations.min().unwrap_or(0),
            _ => separations.fold(0, divisor),
        };
        let up = |t: u64| if self.is(BuildRoundsDown) { 0 } else { t - 1 };
        let budget = |&(t, c): &(u16, u16)| {
            let (t, c) = (u64::from(t), u64::from(c));
            ((frame * c + up(t)) / t).max(1)
        };
        let above = list.iter().map(budget).sum::<u64>() > m * frame;
        if above && self.is(BuildSevenFirst) {
            return refused(7);
        }
        let most = if self.is(BuildSixtyFour) { 63 } else { 64 };
        if frame > most {
            return refused(19);
        }
        if above {
            return refused(7);
        }
        let q = if self.is(BuildCeiling) { 2 } else { 1 };
        let projects: Vec<_> = list.iter().map(|kind| (q, budget(kind) as u16)).collect();
        let last = list.len() - 1;
        let kind = |(place, &(t, c)): (usize, &(u16, u16))| {
            let project = match self.0 {
                BuildLastProject if place == last => place.max(1) - 1,
                _ => place,
            };
            let d = match self.0 {
                BuildDeadline => (t - 1).max(c),
                _ => t,
            };
            (project as u8, t, d, c)
        };
        let kinds: Vec<_> = list.iter().enumerate().map(kind).collect();
        let plan = Plan::of(m as u8, frame as u8, &projects, &kinds);
        (Answer::GOOD, plan)
    }

    /// The figures of a kind.
    fn figured(&self, plan: &Plan, kind: u64) -> (Answer, second::Figures) {
        let none = second::Figures::default();
        let kind = match self.0 {
            FiguresLowByte => kind % 256,
            _ => kind,
        };
        let absent = kind >= u64::from(plan.n);
        let answer = match self.0 {
            FiguresAdmitted if !absent => self.judge(plan).0,
            _ => second::check(plan),
        };
        if absent && (answer.is_good() || self.is(FiguresTwelveFirst)) {
            return (Answer::refused(12), none);
        }
        if !answer.is_good() {
            return (answer, none);
        }
        let i = kind as usize;
        let own = plan.kinds[i];
        let mut seen = *plan;
        if self.is(FiguresAllKinds) {
            for place in &mut seen.kinds {
                place.project = own.project;
            }
        }
        let mut told = second::Figures {
            widths: ceiling_of(plan, i),
            workload: self.workload(&seen, i),
            ..none
        };
        let ks = match self.0 {
            FiguresPastQ => 1..=8,
            FiguresFromNone => 0..=told.widths - 1,
            _ => 1..=told.widths,
        };
        for (place, k) in ks.enumerate() {
            let (supply, slice) =
                self.supply(plan, usize::from(own.project), k, own.deadline.into());
            (told.supply[place], told.slice[place]) = (supply, slice);
        }
        (answer, told)
    }

    /// The plan of a rescue and its entries; no kind may remain.
    fn mended(&self, bytes: &[u8]) -> (Plan, Vec<u8>) {
        let mut plan = unpacked(bytes);
        let (p, n) = (usize::from(plan.p), usize::from(plan.n));
        let (m, frame) = (plan.m, u16::from(plan.frame));
        let entry = |field: u8, place: usize, old: u16, new: u16| {
            let mut values = [old.to_be_bytes(), new.to_be_bytes()];
            if self.is(RescueLowByte) {
                values.iter_mut().for_each(|value| value.reverse());
            }
            [vec![field, place as u8], values.concat()].concat()
        };
        // Each part of the list by itself; the order is made at the end.
        let (mut spare, mut projects, mut kinds) = (Vec::new(), Vec::new(), Vec::new());
        let header = u16::from(bytes[2] & 15);
        if header > 0 && !self.is(RescueHeaderSpare) {
            spare.extend(entry(1, 0, header, 0));
        }
        for place in 0..p {
            let bits = u16::from(bytes[3 + 2 * place + 1] & 3);
            let project = &mut plan.projects[place];
            if bits > 0 {
                match self.is(RescueSpareBeside) {
                    true => projects.extend(entry(2, place, bits, 0)),
                    false => spare.extend(entry(2, place, bits, 0)),
                }
            }
            let old = *project;
            project.ceiling = match old.ceiling {
                q if q > m && self.is(RescueCeilingOne) => 1,
                q => q.clamp(1, m),
            };
            let q = match self.0 {
                RescueOldCeiling => old.ceiling,
                _ => project.ceiling,
            };
            let most = (u16::from(q) * frame).max(1);
            project.budget = match old.budget {
                b if b > most && self.is(RescueBudgetOne) => 1,
                b => b.clamp(1, most),
            };
            if project.ceiling != old.ceiling {
                let (old, new) = (u16::from(old.ceiling), u16::from(project.ceiling));
                projects.extend(entry(4, place, old, new));
            }
            if project.budget != old.budget {
                projects.extend(entry(5, place, old.budget, project.budget));
            }
        }
        let mut kept = 0;
        for place in 0..n {
            let bit = u16::from(bytes[3 + 2 * p + 5 * place + 4] & 1);
            let old = plan.kinds[place];
            let d = old.deadline.min(old.separation);
            let judged = if self.is(RescueLateDeadline) {
                old.deadline
            } else {
                d
            };
            let absent = match self.is(RescueProjectAtP) {
                true => usize::from(old.project) > p,
                false => usize::from(old.project) >= p,
            };
            let drops = absent || old.length == 0 || old.length > judged;
            let told = if self.is(RescuePlaceInResult) {
                kept
            } else {
                place
            };
            if bit > 0 && (!drops || self.is(RescueDroppedSpare)) {
                spare.extend(entry(3, told, bit, 0));
            }
            let changed = d != old.deadline || self.is(RescueUnchanged) && d == old.separation;
            if changed && (!drops || self.is(RescueDroppedDeadline)) {
                kinds.extend(entry(6, told, old.deadline, d));
            }
            plan.kinds[place].deadline = d;
            if drops {
                let value = if self.is(RescueDroppedValue) {
                    old.length
                } else {
                    0
                };
                kinds.extend(entry(7, told, value, 0));
                plan.kinds[place] = Default::default();
            } else {
                if !self.is(RescueHole) {
                    plan.kinds.swap(kept, place);
                }
                kept += 1;
            }
        }
        if !self.is(RescueKindsCounted) || kept == 0 {
            plan.n = kept as u8;
        }
        let list = match self.is(RescueKindsFirst) {
            true => [spare, kinds, projects],
            false => [spare, projects, kinds],
        };
        (plan, list.concat())
    }

    fn start(&self, plan: &Plan) -> (Answer, State) {
        let (answer, _) = self.judge(plan);
        let mut state = State::default();
        if answer.is_good() {
            state.plan = *plan;
        }
        (answer, state)
    }

    fn released(&self, state: &State, kind: u64, e: u64) -> (Answer, State) {
        let kind = if self.is(LowByte) { kind % 256 } else { kind };
        let (mut answer, mut next) = second::release(state, kind, e);
        if self.is(SixteenAfterTwelve) && answer.number == 16 && kind >= u64::from(state.plan.n) {
            answer.number = 12;
        }
        let (Some(place), Some(of_plan)) = (
            state.kinds.get(kind as usize),
            state.plan.kinds.get(kind as usize),
        ) else {
            return (answer, next);
        };
        let project = usize::from(of_plan.project);
        if let (true, Some(sum)) = (answer.is_good(), state.sums.get(project)) {
            match self.0 {
                SumNotRaised => next.sums = state.sums,
                SumRaisedByLength => next.sums[project] = sum + of_plan.length,
                _ => {}
            }
        }
        let (gone, t) = (u64::from(place.gone), u64::from(of_plan.separation));
        if self.is(ReleaseKeepsGone) {
            next.kinds[kind as usize].gone = place.gone;
        }
        match (self.0, answer.number) {
            (Early, 14) if gone + 1 == t && place.left == 0 => {
                let mut seen = *state;
                seen.kinds[kind as usize] = Default::default();
                second::release(&seen, kind, e)
            }
            (ExactlyT, 0) if place.released && gone == t => (Answer::refused(14), *state),
            (FifteenFirst, 14) if place.left > 0 => (Answer::refused(15), *state),
            _ => (answer, next),
        }
    }

    /// Each card that is taken and its kind, by this copy's rules; of a state on a plan in order.
    fn chosen(&self, state: &State) -> Vec<(usize, usize)> {
        let frame = u64::from(state.plan.frame);
        let now = match self.0 {
            Rotated => (u64::from(state.slice) + RUN.get() / frame) % frame,
            _ => u64::from(state.slice),
        };
        let mut chosen = Vec::new();
        let cells = cells(&state.plan);
        for project in 0..usize::from(state.plan.p) {
            let cards = cards_held(&cells, project, now);
            let ranked = self.ranked(state, project);
            let times = if self.is(TwoCards) { 2 } else { 1 };
            let units = ranked.iter().flat_map(|&i| vec![i; times]);
            for (card, i) in cards.into_iter().zip(units) {
                if !self.is(ServesNone) {
                    chosen.push((card as usize, i));
                }
            }
        }
        chosen
    }

    fn shown(&self, state: &State, row: &mut [u8]) -> Answer {
        let mut answer = second::show(state, &mut row.to_vec());
        let short = row.len() < usize::from(state.plan.m);
        if self.is(SixteenAfterNine) && answer.number == 16 && short {
            answer.number = 9;
        }
        if self.is(Eleven) && answer.is_good() && state.slice + 1 == state.plan.frame {
            answer.number = 11;
        }
        if !answer.is_good() {
            return answer;
        }
        // The row, by this copy's rules.
        let chosen = self.chosen(state);
        if !self.is(ShowKeepsIdle) {
            row[..usize::from(state.plan.m)].fill(0);
        }
        for &(card, i) in &chosen {
            row[card] = i as u8 + 1;
        }
        SHOWN.set(Some(chosen));
        Answer::GOOD
    }

    fn advanced(&self, state: &State) -> (Answer, State) {
        let (answer, mut next) = second::advance(state);
        if !answer.is_good() {
            return (answer, next);
        }
        if self.is(Eleven) && next.slice == 0 {
            return (Answer::refused(11), *state);
        }
        for (i, kind) in state.plan.used_kinds().iter().enumerate() {
            let place = state.kinds[i];
            let raised = place.gone + u16::from(place.released);
            next.kinds[i].gone = match self.0 {
                GoneUnheld => raised,
                GoneHeldAtD => raised.min(kind.deadline),
                GoneNever => (place.gone + 1).min(kind.separation),
                _ => raised.min(kind.separation),
            };
        }
        if self.is(SliceUnwrapped) {
            next.slice = state.slice + 1;
        }
        let chosen = match SHOWN.take() {
            Some(shown) if self.is(AdvanceRemembers) => shown,
            _ => self.chosen(state),
        };
        for (place, before) in next.kinds.iter_mut().zip(&state.kinds) {
            place.left = before.left;
        }
        next.sums = state.sums;
        for (_, i) in chosen {
            let stands = self.is(FirstFrame) && RUN.get() >= u64::from(state.plan.frame);
            let left = &mut next.kinds[i].left;
            if *left > 0 && !stands {
                *left -= 1;
                let sum = &mut next.sums[usize::from(state.plan.kinds[i].project)];
                *sum = sum.saturating_sub(1);
            }
        }
        match self.0 {
            SumNotLowered => next.sums = state.sums,
            SumLoweredByHeld => {
                let cells = cells(&state.plan);
                let now = u64::from(state.slice);
                for project in 0..usize::from(state.plan.p) {
                    let held = cards_held(&cells, project, now).len() as u16;
                    next.sums[project] = state.sums[project].saturating_sub(held);
                }
            }
            _ => {}
        }
        (Answer::GOOD, next)
    }

    fn ranked(&self, state: &State, project: usize) -> Vec<usize> {
        let kinds = state.plan.used_kinds();
        let mut ranked: Vec<usize> = (0..kinds.len())
            .filter(|&i| usize::from(kinds[i].project) == project && state.kinds[i].left > 0)
            .collect();
        ranked.sort_by_key(|&i| {
            let (d, gone) = (i32::from(kinds[i].deadline), i32::from(state.kinds[i].gone));
            let other = state.kinds[(i + 1) % kinds.len()].gone;
            match self.0 {
                Ties => (d - gone, kinds.len() - i),
                RankByD => (d, i),
                RankByGone => (-gone, i),
                RankOthersGone => (d - i32::from(other), i),
                _ => (d - gone, i),
            }
        });
        ranked
    }
}

impl Side for Faulty {
    fn check(&self, plan: &[u8]) -> u64 {
        self.on_plan(plan, |plan| Second.check(plan))
    }

    fn read(&self, bytes: &[u8], plan: &mut [u8]) -> u64 {
        let mut seen = bytes.to_vec();
        if self.is(SpareBit) {
            // The spare bit of the last kind is the last bit of the plan.
            let total = second::bytes::bytes_asked_for(bytes);
            if let (Some(last), true) = (seen.get_mut(total - 1), total > 3) {
                *last &= 0xFE;
            }
        }
        let mut word = Second.read(&seen, plan);
        if self.is(SumFirst) || self.is(FiveFirst) {
            word = self.order(&unpacked(&seen), word);
        }
        self.after(word, plan, PLAN_IMAGE)
    }

    fn write(&self, plan: &[u8], out: &mut [u8]) -> u64 {
        let word = self.on_plan(plan, |plan| {
            if self.is(WriteJudges) && number(Second.check(plan)) == 0 {
                let word = Second.verdict(plan, &mut [0; VERDICT_BYTES]);
                if number(word) != 0 {
                    return word;
                }
            }
            Second.write(plan, out)
        });
        self.after(word, out, (word >> 16 & 0xFFFF) as usize)
    }

    fn slot_table(&self, plan: &[u8], out: &mut [u8]) -> u64 {
        let word = self.on_plan(plan, |plan| Second.slot_table(plan, out));
        let word = self.after(word, out, (word >> 16 & 0xFFFF) as usize);
        if self.is(NoCount) {
            word & !0xFFFF_0000
        } else {
            word
        }
    }

    fn verdict(&self, plan: &[u8], k: &mut [u8]) -> u64 {
        let word = self.on_plan(plan, |plan| {
            if plan.len() < PLAN_IMAGE {
                return refused(9);
            }
            let (answer, found) = self.judge(&plan_of(plan));
            let judged = answer.is_good() || answer.number == 8;
            if k.len() < VERDICT_BYTES && (answer.is_good() || self.is(NineFirst) && judged) {
                return match self.0 {
                    SliceStands => refused(9) | u64::from(found[16]) << 56,
                    _ => refused(9),
                };
            }
            if answer.is_good() {
                k[..VERDICT_BYTES].copy_from_slice(&found);
            }
            word(answer, 0)
        });
        self.after(word, k, VERDICT_BYTES)
    }

    fn smallest_budget(&self, plan: &[u8], project: u64) -> u64 {
        self.on_plan(plan, |plan| {
            if plan.len() < PLAN_IMAGE {
                return refused(9);
            }
            let (answer, budget) = self.opened(&plan_of(plan), project);
            word(answer, budget as usize)
        })
    }

    fn build(&self, cards: u64, list: &[u8], plan: &mut [u8]) -> u64 {
        let (answer, built) = self.built(cards, list);
        let told = answer.is_good() || self.is(BuildNineFirst) && answer.number == 7;
        let word = match told && plan.len() < PLAN_IMAGE {
            true => refused(9),
            false => word(answer, 0),
        };
        if number(word) == 0 {
            plan[..PLAN_IMAGE].copy_from_slice(&plan_image(&built));
        }
        self.after(word, plan, PLAN_IMAGE)
    }

    fn figures(&self, plan: &[u8], kind: u64, out: &mut [u8]) -> u64 {
        let word = self.on_plan(plan, |plan| {
            if plan.len() < PLAN_IMAGE {
                return refused(9);
            }
            let (answer, told) = self.figured(&plan_of(plan), kind);
            let early = self.is(FiguresNineFirst) && answer.number == 12;
            if out.len() < FIGURES_BYTES && (answer.is_good() || early) {
                return refused(9);
            }
            if answer.is_good() {
                out[..FIGURES_BYTES].copy_from_slice(&figures_bytes(&told));
            }
            match self.0 {
                FiguresNoCount => word(answer, 0),
                _ => word(answer, told.widths as usize),
            }
        });
        self.after(word, out, FIGURES_BYTES)
    }

    fn rescue(&self, bytes: &[u8], plan: &mut [u8], list: &mut [u8]) -> u64 {
        // Reading tells 1 and 2; whatever else it tells is mended.
        let read = second::read(bytes).0;
        if matches!(read.number, 1 | 2) {
            return word(read, 0);
        }
        let (mended, entries) = self.mended(bytes);
        let short = list.len() < entries.len() || plan.len() < PLAN_IMAGE;
        let told = match () {
            _ if short && self.is(RescueNineFirst) => 9,
            _ if mended.n == 0 && !self.is(RescueNoTwenty) => 20,
            _ if self.is(RescueSeven) && budgets_sum_above(&mended) => 7,
            _ if short => 9,
            _ => 0,
        };
        if told == 9 && self.is(RescueCutList) {
            let count = list.len().min(entries.len()) / 6 * 6;
            list[..count].copy_from_slice(&entries[..count]);
        }
        if plan.len() >= PLAN_IMAGE && (told == 0 || told == 9 && self.is(RescuePlanFirst)) {
            plan[..PLAN_IMAGE].copy_from_slice(&plan_image(&mended));
        }
        if told == 0 {
            list[..entries.len()].copy_from_slice(&entries);
        }
        let count = match (told, self.0) {
            (0, RescueEntries) => entries.len() / 6,
            (0, _) => entries.len(),
            _ => 0,
        };
        let word = word(Answer::refused(told), count);
        self.after(word, list, entries.len());
        self.after(word, plan, PLAN_IMAGE)
    }

    fn fresh(&self, plan: &[u8], state: &mut [u8]) -> u64 {
        let word = self.on_plan(plan, |plan| {
            if plan.len() < PLAN_IMAGE {
                return refused(9);
            }
            let (answer, fresh) = self.start(&plan_of(plan));
            if answer.is_good() {
                if state.len() < STATE_IMAGE {
                    return refused(9);
                }
                state[..STATE_IMAGE].copy_from_slice(&state_image(&fresh));
            }
            word(answer, 0)
        });
        self.after(word, state, STATE_IMAGE)
    }

    fn release(&self, state: &mut [u8], kind: u64, e: u64) -> u64 {
        self.on_state(Op::Release, state, |state| self.released(state, kind, e))
    }

    fn show(&self, state: &[u8], row: &mut [u8]) -> u64 {
        let m = state.first().map_or(0, |&m| usize::from(m));
        // A showing keeps the state.
        let mut kept = state.to_vec();
        let word = self.on_state(Op::Show, &mut kept, |state| {
            (self.shown(state, row), *state)
        });
        self.after(word, row, m)
    }

    fn advance(&self, state: &mut [u8]) -> u64 {
        self.on_state(Op::Advance, state, |state| self.advanced(state))
    }
}

/// The fields of plan bytes, in range or not, as far as they are there.
fn unpacked(bytes: &[u8]) -> Plan {
    let mut next = 0;
    let mut take = |width: usize| {
        let mut value = 0u16;
        for _ in 0..width {
            let byte = bytes.get(next / 8).copied().unwrap_or(0);
            value = value << 1 | u16::from(byte >> (7 - next % 8) & 1);
            next += 1;
        }
        value
    };
    let mut plan = Plan {
        m: take(4) as u8,
        p: take(4) as u8,
        n: take(5) as u8,
        frame: take(7) as u8,
        ..Plan::default()
    };
    take(4);
    let (p, n) = (plan.used_projects().len(), plan.used_kinds().len());
    for place in &mut plan.projects[..p] {
        place.ceiling = take(4) as u8;
        place.budget = take(10);
        take(2);
    }
    for place in &mut plan.kinds[..n] {
        place.project = take(3) as u8;
        place.separation = take(12);
        place.deadline = take(12);
        place.length = take(12);
        take(1);
    }
    plan
}

/// The player with this fault, over the copy with this fault.
pub fn play(fault: Fault, mut input: impl Read, mut output: impl Write) {
    let mut player = Player {
        copy: Faulty(fault),
        state: None,
        turns: 0,
        slices: 0,
    };
    let mut held = Vec::new();
    let mut chunk = vec![0; 1 << 16];
    loop {
        let count = match input.read(&mut chunk) {
            Ok(count) => count,
            Err(error) if error.kind() == io::ErrorKind::Interrupted => continue,
            Err(_) if fault == PlayReadEnd => 0,
            Err(_) => return,
        };
        held.extend(&chunk[..count]);
        let mut lines = String::new();
        let over = player.played(&mut held, count == 0, &mut lines).is_break();
        let written = output
            .write_all(lines.as_bytes())
            .and_then(|()| output.flush());
        if over || written.is_err() && fault != PlayGoesOn {
            return;
        }
    }
}

struct Player {
    copy: Faulty,
    /// None before the plan.
    state: Option<State>,
    turns: u64,
    /// Run so far.
    slices: u64,
}

impl Player {
    /// Plays what can be played of the bytes held, and takes it out of them.
    fn played(&mut self, held: &mut Vec<u8>, last: bool, lines: &mut String) -> ControlFlow<()> {
        if self.state.is_none() {
            if held.len() < second::bytes::bytes_asked_for(held) && !last {
                return Continue(());
            }
            let (mut answer, plan, taken) = second::read(held);
            let mut state = State::default();
            if answer.is_good() {
                (answer, state) = self.copy.start(&plan);
            }
            if !answer.is_good() {
                *lines += &format!("plan refused {} at {}\n", answer.number, answer.place);
                if self.copy.is(PlayRefused) {
                    *lines += "end 0\n";
                }
                return Break(());
            }
            *lines += "plan ok\n";
            held.drain(..taken);
            self.state = Some(state);
        }
        let whole = match last {
            true => held.len(),
            false => held.len() / 3 * 3,
        };
        let commands: Vec<u8> = held.drain(..whole).collect();
        let mut over = last;
        for bytes in commands.chunks(3) {
            self.turns += 1;
            if self.copy.is(PlayStops) && self.turns > 45_000 {
                return Break(());
            }
            match self.turn(bytes) {
                Some(line) => *lines += &line,
                None => {
                    over = true;
                    break;
                }
            }
            if lines.ends_with("bad command\n") {
                if self.copy.is(PlayEnd) {
                    return Break(());
                }
                over = true;
                break;
            }
        }
        if !over {
            return Continue(());
        }
        let clock = match self.copy.is(PlayEndClock) {
            true => self.slices,
            false => self.state.map_or(0, |state| u64::from(state.slice)),
        };
        *lines += &format!("end {clock}\n");
        Break(())
    }

    /// The line of a command; none where the bytes are passed by.
    fn turn(&mut self, bytes: &[u8]) -> Option<String> {
        let state = self.state.unwrap_or_default();
        let mut seen = bytes.to_vec();
        match (self.copy.0, bytes) {
            (PlayLeftOver, [_] | [_, _]) => return None,
            (PlaySliceBits, [0..=7, _, third]) => seen = vec![0, 0, third & 0x7F],
            (PlayLowBits, [128..=255, _, third]) => seen[2] = third & 0x80,
            _ => {}
        }
        let mut line = String::new();
        RUN.set(self.slices);
        let next = match command(&seen) {
            Command::Release { kind, e } => {
                let (answer, next) = self.copy.released(&state, kind, e);
                line += &match answer.number {
                    0 => format!("r {kind} {e} ok"),
                    number => format!("r {kind} {e} refused {number}"),
                };
                next
            }
            Command::Slice => {
                let mut row = vec![0; usize::from(state.plan.m)];
                let answer = self.copy.shown(&state, &mut row);
                let next = match answer.is_good() {
                    true => self.copy.advanced(&state).1,
                    false => state,
                };
                self.slices += u64::from(answer.is_good());
                if self.copy.is(PlayRowAfter) {
                    self.copy.shown(&next, &mut row);
                }
                let clock = match self.copy.is(PlayClock) {
                    true => next.slice,
                    false => state.slice,
                };
                line += &match answer.number {
                    0 => format!("t {clock}:"),
                    number => format!("t refused {number}"),
                };
                if answer.is_good() {
                    for byte in row {
                        line += &format!(" {byte}");
                    }
                }
                next
            }
            Command::Bad => {
                line += "bad command";
                state
            }
        };
        self.state = Some(next);
        Some(line + "\n")
    }
}
