//! One page of HTML of what a log sums up to. It takes nothing from elsewhere.

use crate::sums::{Manner, Part, Shown, Statement, Sum, Sums, Times};
use crate::texts::push_readable;
use std::collections::BTreeMap;
use std::fmt::{Display, Write};

const FRAME: &str = include_str!("page.html");
/// How many columns the time line has.
const COLUMNS: usize = 240;
/// The height of the time line, in its own units.
const HEIGHT: f64 = 100.0;

/// A text as HTML has it, without characters that turn or hide what is shown.
fn escaped(text: &str) -> String {
    let mut html = String::with_capacity(text.len());
    for line in text.split_inclusive('\n') {
        let (line, end) = line
            .strip_suffix('\n')
            .map_or((line, ""), |line| (line, "\n"));
        let mut shown = String::new();
        push_readable(&mut shown, line.as_bytes());
        for character in shown.chars() {
            match character {
                '&' => html.push_str("&amp;"),
                '<' => html.push_str("&lt;"),
                '>' => html.push_str("&gt;"),
                '"' => html.push_str("&quot;"),
                '\'' => html.push_str("&#39;"),
                other => html.push(other),
            }
        }
        html.push_str(end);
    }
    html
}

/// A number with blanks between its thousands.
fn grouped(number: f64) -> String {
    let digits = format!("{:.0}", number);
    let mut text = String::new();
    for (at, digit) in digits.chars().enumerate() {
        if at > 0 && (digits.len() - at) % 3 == 0 {
            text.push('\u{202f}');
        }
        text.push(digit);
    }
    text
}

fn seconds(seconds: f64) -> String {
    match seconds {
        0.0 => "0".to_string(),
        ..0.001 => format!("{:.0} µs", 1e6 * seconds),
        ..1.0 => format!("{:.2} ms", 1e3 * seconds),
        _ => format!("{seconds:.2} s"),
    }
}

/// A table under a heading, each of whose columns can be sorted by.
struct Table {
    html: String,
    rows: usize,
}

impl Table {
    fn new(id: &str, heading: &str, columns: &[&str]) -> Table {
        let heads: String = columns.iter().map(|it| format!("<th>{it}</th>")).collect();
        let table = format!("<table id=\"{id}\"><thead><tr>{heads}</tr></thead><tbody>\n");
        let head = format!("<div class=\"wide\">{table}");
        Table {
            html: format!("<h2>{heading}</h2>\n{head}"),
            rows: 0,
        }
    }

    fn row(&mut self) {
        self.html.push_str("<tr>");
        self.rows += 1;
    }

    fn number(&mut self, number: f64, shown: impl Display) {
        let _ = write!(
            self.html,
            "<td class=\"n\" data-v=\"{number}\">{shown}</td>"
        );
    }

    fn text(&mut self, text: &str) {
        let _ = write!(self.html, "<td class=\"t\">{}</td>", escaped(text));
    }

    fn shown(&mut self, shown: &Shown) {
        match shown.more {
            0 => self.text(&shown.text),
            more => self.text(&format!("{} .. and {more} bytes more", shown.text)),
        }
    }

    fn word(&mut self, text: &str) {
        let _ = write!(self.html, "<td>{}</td>", escaped(text));
    }

    /// What commands sum up to, with their share of all.
    fn sum(&mut self, sum: &Sum, all: &Sum) {
        let share = 100.0 * sum.seconds / all.seconds.max(1e-9);
        self.number(sum.count, grouped(sum.count));
        self.number(sum.seconds, seconds(sum.seconds));
        self.number(share, format_args!("{share:.1} %"));
        let mean = sum.seconds / sum.count.max(1.0);
        for time in [mean, sum.percentile(95.0), sum.slowest] {
            self.number(time, seconds(time));
        }
        self.word(&sum.slowest_at);
        for number in [
            sum.rows,
            sum.affected,
            sum.errors,
            sum.bytes[0],
            sum.bytes[1],
        ] {
            self.number(number, grouped(number));
        }
    }

    fn end(mut self) -> String {
        if self.rows == 0 {
            return String::new();
        }
        self.html.push_str("</tbody></table></div>\n");
        self.html
    }
}

/// The columns of `Table::sum`.
const SUMS: [&str; 12] = [
    "count",
    "total",
    "share",
    "mean",
    "95 %",
    "slowest",
    "slowest at",
    "rows",
    "affected",
    "errors",
    "bytes asked",
    "bytes answered",
];

fn statements(top: &[Statement], others: &Statement, manner: Manner, all: &Sum) -> String {
    let example = if manner.examples {
        &["the slowest one's text"][..]
    } else {
        &[]
    };
    let columns = [&["kind", "statement"], example, &SUMS].concat();
    let mut table = Table::new("statements", "Statements", &columns);
    let others = Some(others).filter(|it| it.sum.count > 0.0);
    for statement in top.iter().chain(others) {
        table.row();
        table.word(&statement.kind);
        table.shown(&statement.shown);
        if manner.examples {
            table.shown(&statement.example);
        }
        table.sum(&statement.sum, all);
    }
    table.end()
}

fn names(id: &str, heading: &str, column: &str, sums: &BTreeMap<String, Sum>, all: &Sum) -> String {
    let columns = [&[column][..], &SUMS].concat();
    let mut table = Table::new(id, heading, &columns);
    let mut sums: Vec<_> = sums.iter().collect();
    sums.sort_by(|one, other| other.1.seconds.total_cmp(&one.1.seconds));
    for (name, sum) in sums {
        table.row();
        table.word(if name.is_empty() { "(none)" } else { name });
        table.sum(sum, all);
    }
    table.end()
}

fn told(id: &str, heading: &str, columns: &[&str], times: &BTreeMap<String, Times>) -> String {
    let mut table = Table::new(id, heading, columns);
    let mut all: Vec<_> = times.iter().collect();
    all.sort_by(|one, other| other.1.count.total_cmp(&one.1.count));
    for (name, times) in all {
        table.row();
        table.word(name);
        table.number(times.count, grouped(times.count));
        table.word(&times.first);
        table.word(&times.last);
        if columns.len() > 4 {
            table.text(&times.text);
        }
    }
    table.end()
}

/// Rectangles, one for each part of the time: their heights are shares of the highest one.
fn bars(
    parts: &[(u64, Part)],
    class: &str,
    of: impl Fn(&Part) -> f64,
    most: f64,
    titles: bool,
) -> String {
    let mut html = String::new();
    for (column, part) in parts {
        let height = HEIGHT * of(part) / most.max(1e-12);
        if height <= 0.0 {
            continue;
        }
        let (y, height) = (HEIGHT - height, height.max(0.5));
        let place = format!("x=\"{column}\" y=\"{y:.2}\" width=\"1\" height=\"{height:.2}\"");
        let title = match titles {
            true => {
                let mean = seconds(part.seconds / part.count.max(1.0));
                let (count, errors) = (grouped(part.count), grouped(part.errors));
                let slowest = seconds(part.slowest);
                format!("{count} commands, {errors} errors, mean {mean}, slowest {slowest}")
            }
            false => String::new(),
        };
        let _ = writeln!(
            html,
            "<rect class=\"{class}\" {place}><title>{title}</title></rect>"
        );
    }
    html
}

fn time_line(sums: &mut Sums) -> String {
    let length = |sums: &Sums| {
        let first = sums.parts.keys().next().copied().unwrap_or(0);
        (
            first,
            sums.parts.keys().last().map_or(0, |last| last - first + 1),
        )
    };
    while length(sums).1 > COLUMNS as u64 {
        sums.widen();
    }
    let (first, columns) = length(sums);
    let parts: Vec<_> = sums
        .parts
        .iter()
        .map(|(at, part)| (at - first, *part))
        .collect();
    let most = |of: fn(&Part) -> f64| parts.iter().map(|(_, part)| of(part)).fold(0.0, f64::max);
    let mean: fn(&Part) -> f64 = |part| part.seconds / part.count.max(1.0);
    let (count, slowest) = (most(|part| part.count), most(|part| part.slowest));
    let svg = |id: &str, inner: String| {
        let view = format!("0 0 {columns} {HEIGHT}");
        format!(
            "<svg id=\"{id}\" viewBox=\"{view}\" preserveAspectRatio=\"none\">\n{inner}</svg>\n"
        )
    };
    let counts = bars(&parts, "count", |part| part.count, count, true)
        + &bars(&parts, "bad", |part| part.errors, count, true);
    let times = bars(&parts, "slow", |part| part.slowest, slowest, true)
        + &bars(&parts, "mean", mean, slowest, true);
    let width = sums.width;
    let rate = grouped(count / width as f64);
    format!(
        "<h2>Time line</h2>\n<p>Each column is {width} s. Above: commands (at most {rate} a second), \
         errors in red. Below: the slowest (at most {}), the mean in green.</p>\n{}{}",
        seconds(slowest),
        svg("counts", counts),
        svg("times", times)
    )
}

fn head(sums: &Sums, manner: Manner, files: &[String]) -> String {
    let mut html = String::from("<h1>Audit of statements</h1>\n");
    let files = escaped(&files.join(", "));
    let (first, last) = (escaped(&sums.first), escaped(&sums.last));
    let _ = writeln!(
        html,
        "<p>{files}: {} lines from {first} to {last}. {} commands took {} in all, and {} were \
         answered by errors. {} logins.</p>",
        grouped(sums.lines as f64),
        grouped(sums.all.count),
        seconds(sums.all.seconds),
        grouped(sums.all.errors),
        grouped(sums.logins.count),
    );
    html.push_str(match manner.by_text {
        true => "<p>Statements are the same where their whole texts are. ",
        false => "<p>Statements are the same where their digests are: values are taken out. ",
    });
    html.push_str("Numbers of 95 % are exact to a fifth.</p>\n");
    if sums.is_sample {
        html.push_str("<p class=\"warn\">Some lines are a sample: each counts for as many.</p>\n");
    }
    if sums.unread > 0 {
        let unread = grouped(sums.unread as f64);
        let _ = writeln!(
            html,
            "<p class=\"warn\">{unread} lines couldn't be read.</p>"
        );
    }
    html
}

/// The page, with so many statements.
pub fn page(mut sums: Sums, manner: Manner, most: usize, files: &[String]) -> String {
    let texts = sums.texts();
    let top = sums.top(most);
    let mut body = head(&sums, manner, files);
    let gaps = ["what", "count", "first", "last", "text"];
    body += &told("gaps", "What wasn't audited or served", &gaps, &sums.gaps);
    body += &time_line(&mut sums);
    if texts > top.len() {
        let _ = writeln!(
            body,
            "<p>Of {texts} statements {} are shown.</p>",
            top.len()
        );
    }
    body += &statements(&top, &sums.others, manner, &sums.all);
    let errors = ["error", "count", "first", "last", "the first one's message"];
    body += &told("errors", "Errors", &errors, &sums.errors);
    body += &names("users", "Users", "user", &sums.users, &sums.all);
    body += &names("hosts", "Hosts", "host", &sums.hosts, &sums.all);
    body += &names(
        "databases",
        "Databases",
        "database",
        &sums.databases,
        &sums.all,
    );
    body += &names("tables", "Tables", "table", &sums.tables, &sums.all);
    let ends = ["end", "count", "first", "last"];
    body += &told("ends", "How connections ended", &ends, &sums.ends);
    // The frame is ours, and has the word once.
    let (before, behind) = FRAME.split_once("{body}").unwrap_or((FRAME, ""));
    [before, &body, behind].concat()
}

#[cfg(test)]
mod tests {
    use super::{escaped, grouped, page, seconds};
    use crate::sums::{Manner, Sums};

    const MANNER: Manner = Manner {
        most: 9,
        by_text: true,
        examples: true,
    };

    #[test]
    fn numbers_are_written_for_people() {
        assert_eq!("1\u{202f}234\u{202f}567", grouped(1_234_567.0));
        assert_eq!(("12", "123"), (&*grouped(12.0), &*grouped(123.0)));
        assert_eq!(("50 µs", "2.00 s"), (&*seconds(0.000_05), &*seconds(2.0)));
        assert_eq!(("12.50 ms", "0"), (&*seconds(0.0125), &*seconds(0.0)));
    }

    #[test]
    fn what_is_said_is_no_html() {
        assert_eq!(
            "&lt;b a=&quot;&#39;&quot;&gt;&amp;\n\\u{202e}",
            escaped("<b a=\"'\">&\n\u{202e}")
        );
        let mut sums = Sums::new(MANNER);
        let evil = r#"<script>alert(1)</script>{body}"#;
        for field in ["text", "user", "database", "client", "time", "kind"] {
            let text = format!(
                "{{\"time\":\"2026-11-30T10:00:00Z\",\"kind\":\"query\",\"{field}\":\"{evil}\",\
                 \"results\":[{{\"error\":1,\"state\":\"{evil}\",\"message\":\"{evil}\"}}],\"seconds\":1}}"
            );
            sums.take(text.as_bytes());
        }
        for kind in ["cut", "end", "refused"] {
            let text = format!("{{\"time\":\"{evil}\",\"kind\":\"{kind}\",\"text\":\"{evil}\"}}");
            sums.take(text.as_bytes());
        }
        let html = page(sums, MANNER, 100, &[evil.to_string()]);
        assert_eq!(1, html.matches("<script>").count());
        assert_eq!(0, html.matches("alert(1)</script>").count());
        assert!(html.contains("&lt;script&gt;alert(1)&lt;/script&gt;{body}"));
    }

    #[test]
    fn an_empty_log_has_a_page() {
        let html = page(Sums::new(MANNER), MANNER, 100, &["-".to_string()]);
        assert!(html.starts_with("<!DOCTYPE html>") && html.ends_with("</html>\n"));
    }
}
