//! Rows that stay on one line of a terminal.

use crate::text;

/// How a row stays on one line of a terminal.
#[derive(Clone, Copy)]
pub struct Fit {
    pub width: usize,
    /// Columns, from the one that is left out first. The last of all is not among
    /// them: it is cut, and so is the first, unless it is left out.
    pub order: &'static [usize],
}

/// What is left of the last column at least.
const LEAST: usize = 20;

impl Fit {
    /// How wide each column may be; none where it is not shown.
    pub fn limits(&self, widths: &[usize]) -> Vec<Option<usize>> {
        let mut limits: Vec<Option<usize>> = widths.iter().copied().map(Some).collect();
        let last = widths.len() - 1;
        let least = widths[last].min(LEAST);
        // With the blanks behind them.
        let before = |limits: &[Option<usize>]| -> usize {
            limits[..last].iter().flatten().map(|width| width + 2).sum()
        };
        for &column in self.order {
            if before(&limits) + least <= self.width {
                break;
            }
            limits[column] = None;
        }
        if limits[0].is_some() {
            let others = before(&limits) - widths[0];
            let room = self.width.saturating_sub(others + least).max(self.width / 3);
            limits[0] = Some(widths[0].min(room));
        }
        limits[last] = Some(self.width.saturating_sub(before(&limits)));
        limits
    }
}

/// At most so wide: of a path its end, and of anything else its start.
pub fn cut(text: &str, room: usize) -> String {
    if text::width(text) <= room {
        return text.to_string();
    }
    let mut left = room.saturating_sub(1);
    let fits = |character: &char| {
        let width = text::width(character.encode_utf8(&mut [0; 4]));
        let is_in = width <= left;
        left = if is_in { left - width } else { 0 };
        is_in
    };
    if text.starts_with('\\') || text.contains('/') {
        let end: Vec<char> = text.chars().rev().take_while(fits).collect();
        std::iter::once('\u{2026}').chain(end.into_iter().rev()).collect()
    } else {
        text.chars().take_while(fits).chain(['\u{2026}']).collect()
    }
}
