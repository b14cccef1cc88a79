//! `encode`: a plan as plan bytes.

use super::{good, notes};
use crate::arguments::Given;
use crate::ending::{Ending, Outcome, Trouble};
use crate::json::Json;
use crate::output;
use crate::subject::{of_bytes, Subject};

/// Answers it.
pub fn answer(given: &Given) -> Outcome<Ending> {
    let subject = Subject::read(given.argument(0))?;
    let bytes = match subject.plan.bytes() {
        Ok(bytes) => bytes,
        Err(answer) => return Err(Trouble::Faults(subject.source, vec![of_bytes(answer)])),
    };
    notes(&subject);
    let verdict = subject.plan.verdict();
    if let Err(answer) = verdict {
        let fault = subject.not_admitted(answer);
        output::note(&format!(
            "{}; the bytes are written all the same",
            fault.line(&subject.source)
        ));
    }
    if let Some(file) = given.value("--write") {
        output::save(file, &bytes)?;
    }
    if given.has("--json") {
        let hex: Vec<String> = bytes.iter().map(|byte| format!("{byte:02x}")).collect();
        let fields = vec![
            ("admitted", verdict.is_ok().into()),
            ("bytes", Json::from(bytes)),
            ("hex", hex.concat().into()),
        ];
        output::print(
            good("encode", &subject.source, fields)
                .document()
                .as_bytes(),
        )?;
    } else if given.value("--write").is_none() {
        output::print(&bytes)?;
    }
    Ok(Ending::Good)
}
