//! One page that can be mailed: the verdict, the slot table, and the chart with a slider over the slices.
//! Nothing is fetched from anywhere.

use crate::colour::small_letter;
use crate::commands::{kind_rows, project_rows, verdict_rows, LEGEND};
use crate::figures::Figures;
use crate::json::Json;
use crate::record::Record;
use crate::subject::Subject;
use crate::svg::{self, escaped};

const STYLE: &str = "\
body { font-family: sans-serif; margin: 2em auto; padding: 0 1.5em; max-width: 70em; color: #222 }
table { border-collapse: collapse; margin: 1em 0 }
th, td { border: 1px solid #ccc; padding: 0.25em 0.6em; text-align: right }
th:first-child, td:first-child { text-align: left }
.wide { overflow-x: auto; position: relative; border: 1px solid #ccc }
.wide svg { display: block }
#mark { position: absolute; top: 0; bottom: 0; background: rgba(255, 200, 0, 0.35); pointer-events: none }
input[type=range] { width: 100%; box-sizing: border-box; margin: 0 }
.good { color: #1b7837 }
";

const SCRIPT: &str = "\
var data = JSON.parse(document.getElementById('data').textContent);
var slider = document.getElementById('slider');
var mark = document.getElementById('mark');
var chart = document.getElementById('chart');
function show() {
  var slice = Number(slider.value);
  var row = data.rows[slice] || [];
  document.getElementById('slice').textContent = 'slice ' + slice + ' (slice ' + slice % data.frame + ' of the frame)';
  var list = document.getElementById('cards');
  list.textContent = '';
  row.forEach(function (byte, card) {
    var item = document.createElement('li');
    var held = data.slots[card][slice % data.frame];
    item.textContent = 'card ' + card + ': ' + (byte ? data.kinds[byte - 1] : held ? 'idle' : 'free');
    list.appendChild(item);
  });
  data.releases.forEach(function (release) {
    if (release[2] === slice) {
      var item = document.createElement('li');
      item.textContent = 'released just before: ' + data.kinds[release[0]] + ', ' + release[1] + ' long, due before slice ' + release[3];
      list.appendChild(item);
    }
  });
  var left = data.left + slice * data.cell;
  mark.style.left = left + 'px';
  mark.style.width = data.cell + 'px';
  if (left < chart.scrollLeft + data.left || left > chart.scrollLeft + chart.clientWidth - data.cell) {
    chart.scrollLeft = left - chart.clientWidth / 2;
  }
}
var asked = /^#slice=([0-9]+)$/.exec(location.hash);
if (asked) { slider.value = asked[1]; }
slider.addEventListener('input', show);
show();
";

/// The page.
pub fn page(subject: &Subject, figures: &[Figures], record: &Record, slots: &[u8]) -> String {
    let title = format!("Parchbeetle: {}", subject.title());
    let verdict = "admitted: every unit will be in time";
    let last = record.slices.saturating_sub(1);
    let chart = match record.slices {
        0 => "<p>No slice was run.</p>".to_string(),
        _ => format!(
            "<p><input type=\"range\" id=\"slider\" min=\"0\" max=\"{last}\" value=\"0\" aria-label=\"slice\"></p>\n\
             <p><strong id=\"slice\"></strong></p>\n<ul id=\"cards\"></ul>\n\
             <div class=\"wide\" id=\"chart\"><div id=\"mark\"></div>\n{}</div>\n\
             <p>A triangle is a release, a red bar a deadline; grey cells are idle, and pale ones free.</p>",
            svg::chart(subject, record, slots, record.slices)
        ),
    };
    let script = match record.slices {
        0 => String::new(),
        _ => format!(
            "<script type=\"application/json\" id=\"data\">{}</script>\n<script>\n{SCRIPT}</script>\n",
            data(subject, record, slots).in_page()
        ),
    };
    format!(
        "<!DOCTYPE html>\n<html lang=\"en\">\n<head>\n<meta charset=\"utf-8\">\n<title>{}</title>\n<style>\n{STYLE}</style>\n</head>\n\
         <body>\n<h1>{}</h1>\n<h2>Verdict</h2>\n<p class=\"good\">{verdict}</p>\n{}<p>{}</p>\n\
         <h2>Slot table</h2>\n<div class=\"wide\">{}</div>\n<h2>Run</h2>\n{chart}\n{}{}{script}</body>\n</html>\n",
        escaped(&title),
        escaped(&title),
        table(&verdict_rows(subject, figures, false)),
        escaped(LEGEND.trim_end()),
        svg::slot_table(subject, slots),
        table(&kind_rows(subject, record)),
        table(&project_rows(subject, record)),
    )
}

/// Rows as a table; the first is its head.
fn table(rows: &[Vec<String>]) -> String {
    let mut out = String::from("<table>\n");
    for (at, row) in rows.iter().enumerate() {
        let tag = if at == 0 { "th" } else { "td" };
        out.push_str("<tr>");
        for cell in row {
            out += &format!("<{tag}>{}</{tag}>", escaped(cell));
        }
        out.push_str("</tr>\n");
    }
    out + "</table>\n"
}

/// What the slider shows.
fn data(subject: &Subject, record: &Record, slots: &[u8]) -> Json {
    let cards = usize::from(record.plan.cards);
    let rows = record
        .rows
        .iter()
        .map(|row| row.iter().take(cards).copied().collect());
    let kinds = (0..record.kinds.len())
        .map(|kind| format!("{} {}", small_letter(kind), subject.names.kind(kind)));
    let releases = record.units().into_iter().map(|unit| {
        let numbers = [unit.kind as u64, unit.length, unit.at, unit.due];
        Json::List(numbers.map(Json::from).to_vec())
    });
    let (left, cell) = svg::COLUMNS;
    Json::Object(vec![
        ("frame", record.plan.frame.into()),
        ("left", left.into()),
        ("cell", cell.into()),
        ("kinds", kinds.collect::<Vec<String>>().into()),
        ("releases", Json::List(releases.collect())),
        (
            "slots",
            Json::Rows(
                slots
                    .chunks(usize::from(record.plan.frame.max(1)))
                    .map(<[u8]>::to_vec)
                    .collect(),
            ),
        ),
        ("rows", Json::Rows(rows.collect())),
    ])
}
