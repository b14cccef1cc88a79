//! `build`: a finished plan of one-kind projects.

use super::good;
use crate::arguments::Given;
use crate::ending::{Ending, Outcome, Trouble};
use crate::faults::{About, Fault};
use crate::names::{number, shown, Names};
use crate::output;
use crate::subject::Subject;
use bindings::{in_words, Answer, Plan};

/// Answers it.
pub fn answer(given: &Given) -> Outcome<Ending> {
    let words: Vec<String> = given
        .arguments
        .iter()
        .map(|word| word.to_string_lossy().into_owned())
        .collect();
    let (cards, listed) = words
        .split_first()
        .map_or(("", &[][..]), |(first, rest)| (first.as_str(), rest));
    let Some(cards) = number(cards) else {
        return Err(Trouble::Use(format!(
            "`{}` is no number of cards",
            shown(cards)
        )));
    };
    let kinds = listed
        .iter()
        .map(|word| pair(word))
        .collect::<Outcome<Vec<(u16, u16)>>>()?;
    let plan = Plan::build(cards, &kinds).map_err(|answer| refused(answer, listed))?;
    let subject = Subject {
        source: "build".to_string(),
        plan,
        names: Names::default(),
        text: None,
        rest: 0,
        found: None,
    };
    let bytes = plan.bytes().unwrap_or_default();
    if let Some(file) = given.value("--write") {
        output::save(file, &bytes)?;
    }
    let text = super::decode::plain(&subject);
    if given.has("--json") {
        let hex: Vec<String> = bytes.iter().map(|byte| format!("{byte:02x}")).collect();
        let fields = vec![
            ("plan", subject.json()),
            ("text", text.into()),
            ("hex", hex.concat().into()),
        ];
        output::print(good("build", "build", fields).document().as_bytes())?;
    } else {
        output::print(text.as_bytes())?;
    }
    Ok(Ending::Good)
}

/// A separation and a length; a number too wide for its field counts as the widest.
fn pair(word: &str) -> Outcome<(u16, u16)> {
    let read = |word: &str| number(word).map(|number| u16::try_from(number).unwrap_or(u16::MAX));
    let pair = word
        .split_once(':')
        .and_then(|(separation, length)| Some((read(separation)?, read(length)?)));
    pair.ok_or(Trouble::Use(format!(
        "`{}` is not T:C, two numbers",
        shown(word)
    )))
}

/// Why there is no such plan.
fn refused(answer: Answer, words: &[String]) -> Trouble {
    let place = usize::from(answer.place);
    let why = in_words(answer.number);
    let fault = match (answer.number, words.get(place)) {
        (6, Some(word)) => Fault::refused(
            None,
            6,
            About::Kind(place),
            format!("kind {place}, {}: {why}", shown(word)),
        ),
        (number, _) => Fault::refused(None, number, About::Plan, why.to_string()),
    };
    Trouble::Faults("build".to_string(), vec![fault])
}
