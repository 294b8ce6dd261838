//! A part of a text with a mark under it, as compilers show it.
use crate::desk::paint::Paint;
use std::ops::Range;
use tariff::places::place;

/// The widest part of a line that is shown, and what is shown before the mark where a line is cut.
const WIDTH: usize = 100;
const BEFORE: usize = 12;
/// The most lines of one part.
const LINES: usize = 8;

/// One column for each byte: what cannot be shown, or would move a terminal's cursor, becomes a sign.
fn shown(bytes: &[u8]) -> String {
    let sign = |&b: &u8| match b {
        b'\t' => ' ',
        32..127 => char::from(b),
        _ => '\u{fffd}',
    };
    bytes.iter().map(sign).collect()
}

/// A line and its mark, both cut to what fits.
fn cut(line: &[u8], mark: Range<usize>) -> (String, String) {
    let from = if mark.end.min(mark.start + WIDTH / 2) > WIDTH { mark.start.saturating_sub(BEFORE) } else { 0 };
    let to = line.len().min(from + WIDTH);
    let (left, right) = (if from > 0 { "…" } else { "" }, if to < line.len() { "…" } else { "" });
    let space = mark.start - from + left.chars().count();
    let marked = "^".repeat(mark.end.min(to).saturating_sub(mark.start).max(1));
    (format!("{left}{}{right}", shown(&line[from..to])), format!("{}{marked}", " ".repeat(space)))
}

/// The lines of a text that a part touches: number, bytes, and the part in it without blanks at its ends.
fn lines<'a>(text: &'a [u8], part: &Range<usize>) -> Vec<(usize, &'a [u8], Range<usize>)> {
    let mut out = Vec::new();
    let mut start = 0;
    for (k, line) in text.split(|&b| b == b'\n').enumerate() {
        let end = start + line.len();
        if start < part.end && part.start <= end {
            let inside = part.start.max(start) - start..part.end.min(end) - start;
            let from = inside.start + line[inside.clone()].iter().take_while(|b| b.is_ascii_whitespace()).count();
            let to = inside.end - line[inside.clone()].iter().rev().take_while(|b| b.is_ascii_whitespace()).count();
            if from < to {
                out.push((k + 1, line, from..to));
            }
        }
        start = end + 1;
    }
    out
}

/// Where a part begins, as `FILE:LINE:COLUMN`.
pub fn at(file: &str, text: &[u8], start: usize) -> String {
    let p = place(text, start);
    format!("{file}:{}:{}", p.line, p.column)
}

/// How wide the numbers of the shown lines are.
pub fn gutter(text: &[u8], part: &Range<usize>) -> usize {
    place(text, part.end).line.to_string().len()
}

/// The place of a part, its lines with marks, and what is said of it.
pub fn excerpt(file: &str, text: &[u8], part: Range<usize>, said: &str, gutter: usize, paint: Paint) -> String {
    let bar = paint.edge("|");
    let pad = " ".repeat(gutter);
    let mut out = format!("{pad}{} {}\n", paint.edge("-->"), at(file, text, part.start));
    let lines = lines(text, &part);
    if lines.is_empty() {
        return out;
    }
    out += &format!("{pad} {bar}\n");
    let last = lines.len().min(LINES);
    for (k, (number, line, mark)) in lines.iter().take(LINES).enumerate() {
        let (text, mark) = cut(line, mark.clone());
        let said = if k + 1 == last { format!(" {said}") } else { String::new() };
        out +=
            &format!("{} {bar} {text}\n{pad} {bar} {}\n", paint.edge(&format!("{number:gutter$}")), paint.error(&format!("{mark}{said}")));
    }
    if lines.len() > LINES {
        out += &format!("{pad} {bar} ({} more lines)\n", lines.len() - LINES);
    }
    out
}

#[cfg(test)]
mod tests {
    use super::*;

    fn plain(text: &str, part: Range<usize>) -> String {
        let gutter = gutter(text.as_bytes(), &part);
        excerpt("f", text.as_bytes(), part, "here", gutter, Paint(false))
    }

    #[test]
    fn one_line() {
        assert_eq!(plain("(a)\n (b c) (d)\n", 5..10), " --> f:2:2\n  |\n2 |  (b c) (d)\n  |  ^^^^^ here\n");
    }

    #[test]
    fn several_lines_are_marked_without_their_indents() {
        assert_eq!(plain("(a\n\n  b)", 0..8), " --> f:1:1\n  |\n1 | (a\n  | ^^\n3 |   b)\n  |   ^^ here\n");
    }

    #[test]
    fn a_long_line_is_cut_around_the_mark() {
        let text = format!("{}(b){}", "x".repeat(500), "y".repeat(500));
        let shown = plain(&text, 500..503);
        assert!(shown.starts_with(" --> f:1:501\n"), "{shown}");
        assert!(shown.contains(&format!("1 | …{}(b)yyy", "x".repeat(12))), "{shown}");
        assert!(shown.ends_with(&format!("  | {}^^^ here\n", " ".repeat(13))), "{shown}");
        assert!(shown.lines().all(|l| l.chars().count() < 120));
    }

    #[test]
    fn a_long_form_is_marked_as_far_as_it_is_shown() {
        let text = format!("(b {})", "y".repeat(500));
        let shown = plain(&text, 0..text.len());
        assert!(shown.ends_with(&format!("  | {} here\n", "^".repeat(100))), "{shown}");
    }

    #[test]
    fn control_bytes_do_not_reach_a_terminal() {
        assert_eq!(shown(b"a\x1b[2J\tb"), "a\u{fffd}[2J b");
    }

    #[test]
    fn many_lines_are_counted() {
        let shown = plain(&format!("({})", "a\n".repeat(20)), 0..42);
        assert!(shown.ends_with("  | (13 more lines)\n"), "{shown}");
    }
}
