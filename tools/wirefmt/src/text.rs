//! The texts of sources. Each thread keeps one formatter.

use std::cell::RefCell;

use wirescript_format::{Formatter, LineEnding, Options, Refusal};

thread_local! {
    static FORMATTER: RefCell<Formatter> = RefCell::new(Formatter::new());
}

/// The text of a source.
pub struct Text {
    pub text: String,
    /// Whether a text that was to be stable still changed at the last pass that is made.
    pub unsettled: bool,
}

/// The text after one pass or, if it is to be stable, after as many as change something, at most five.
pub fn text(source: &[u8], options: &Options, stable: bool) -> Result<Text, Refusal> {
    FORMATTER.with_borrow_mut(|formatter| {
        let (text, unsettled) = if stable {
            let stable = formatter.format_stable(source, options)?;
            (stable.text, !stable.stable)
        } else {
            (formatter.format(source, options)?.text, false)
        };
        let text = text.to_owned();
        Ok(Text { text, unsettled })
    })
}

/// Whether formatting leaves a source as it is; then it does so however often.
pub fn unchanged(source: &[u8], options: &Options) -> Result<bool, Refusal> {
    FORMATTER.with_borrow_mut(|formatter| {
        if options.get_line_ending() != LineEnding::Kept {
            return formatter.is_formatted(source, options);
        }
        let formatted = formatter.format(source, options)?;
        Ok(formatted.text.as_bytes() == source)
    })
}

/// The lines, from 0, of all brackets that are still open at the end, one for each.
pub fn open_brackets(source: &[u8], options: &Options) -> Result<Vec<u64>, Refusal> {
    FORMATTER.with_borrow_mut(|formatter| {
        let formatted = formatter.format(source, options)?;
        let all = usize::try_from(formatted.open_brackets).expect("at most one for each byte");
        if formatted.opened.len() == all {
            return Ok(formatted.opened.to_vec());
        }
        let mut longer = Formatter::new().listed(all);
        Ok(longer.format(source, options)?.opened.to_vec())
    })
}
