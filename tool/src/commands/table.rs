//! `table`: the slot table as a picture.

use super::{colours, good, notes};
use crate::arguments::Given;
use crate::ending::{Ending, Outcome, Trouble};
use crate::json::Json;
use crate::output;
use crate::slots;
use crate::subject::{of_bytes, Subject};
use crate::svg;

/// Answers it.
pub fn answer(given: &Given) -> Outcome<Ending> {
    let colours = colours(given)?;
    let subject = Subject::read(given.argument(0))?;
    let slots = match subject.plan.slots() {
        Ok(slots) => slots,
        Err(answer) => return Err(Trouble::Faults(subject.source, vec![of_bytes(answer)])),
    };
    notes(&subject);
    let verdict = subject.plan.verdict();
    if let Err(answer) = verdict {
        output::note(&subject.not_admitted(answer).line(&subject.source));
    }
    if let Some(file) = given.value("--svg") {
        output::save(file, svg::slot_table(&subject, &slots).as_bytes())?;
    }
    if given.has("--json") {
        let frame = usize::from(subject.plan.frame.max(1));
        let fields = vec![
            ("admitted", verdict.is_ok().into()),
            ("plan", subject.json()),
            ("free_cells", slots::free(&slots).into()),
            (
                "cards",
                Json::Rows(slots.chunks(frame).map(<[u8]>::to_vec).collect()),
            ),
        ];
        output::print(good("table", &subject.source, fields).document().as_bytes())?;
    } else {
        output::print(slots::picture(&subject, &slots, colours).as_bytes())?;
    }
    Ok(Ending::Good)
}
