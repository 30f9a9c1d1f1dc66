//! Our .editorconfig files (C-12): found on disk, read, and applied to options.

use crate::options::{EditorConfig, EndOfLine, IndentSize, IndentStyle, MaxLineLength, Options};
use crate::raw::{self, Refusable, Resolved};
use crate::refusal::Refusal;

#[cfg(feature = "std")]
pub use self::disk::{Files, find};

#[cfg(feature = "std")]
mod disk;

/// How many texts a call takes: the file's own directory and the seven above it.
pub const TEXTS: usize = 8;

/// The longest text, in bytes.
pub const MAX_TEXT: usize = 65_536;

/// The name of the files.
pub const FILE_NAME: &str = ".editorconfig";

impl EditorConfig {
    /// The values that .editorconfig texts set for a path. A leading slash of the path is dropped;
    /// each other slash is one directory down from the top. The first text is that of the file's own
    /// directory, each next that of one directory up; those above the path's top, and those behind
    /// the eighth, are unused. A missing file is an empty text.
    ///
    /// ```
    /// use wirescript_format::{EditorConfig, IndentSize, Refusal};
    ///
    /// let near = "[*.ws]\nindent_size = 4\n";
    /// let far = "root = true\n[*]\nindent_size = 8\ntab_width = 8\n";
    /// let config = EditorConfig::read("src/gate.ws", &[near, far])?;
    /// assert_eq!(config.indent_size, Some(IndentSize::Value(4)));
    /// assert_eq!(config.tab_width, Some(8));
    /// assert_eq!(EditorConfig::read("a", &["#".repeat(65_537)]), Err(Refusal::ConfigTooLong));
    /// # Ok::<(), Refusal>(())
    /// ```
    ///
    /// # Errors
    /// [`Refusal::ConfigTooLong`], [`Refusal::NotUtf8`] (of the path or a text) and
    /// [`Refusal::NameTooLong`], in this order, each over all eight texts.
    pub fn read(path: impl AsRef<[u8]>, texts: &[impl AsRef<[u8]>]) -> Result<Self, Refusal> {
        let mut eight: [&[u8]; TEXTS] = [&[]; TEXTS];
        for (slot, text) in eight.iter_mut().zip(texts) {
            *slot = text.as_ref();
        }
        let answer = raw::read_editorconfig(path.as_ref(), eight).accepted()?;
        Ok(Self::of(answer.values))
    }

    fn of(a: Resolved) -> Self {
        Self {
            indent_style: match a.style {
                1 => Some(IndentStyle::Tabs),
                2 => Some(IndentStyle::Spaces),
                _ => None,
            },
            indent_size: match a.size_kind {
                1 => Some(IndentSize::Tab),
                2 => Some(IndentSize::Value(a.size)),
                _ => None,
            },
            tab_width: (a.tab_set == 1).then_some(a.tab),
            max_line_length: match a.max_kind {
                1 => Some(MaxLineLength::Off),
                2 => Some(MaxLineLength::Value(a.max)),
                _ => None,
            },
            end_of_line: match a.ending {
                1 => Some(EndOfLine::Lf),
                2 => Some(EndOfLine::Crlf),
                3 => Some(EndOfLine::Cr),
                _ => None,
            },
            insert_final_newline: match a.newline {
                1 => Some(false),
                2 => Some(true),
                _ => None,
            },
        }
    }
}

impl Options {
    /// The default options overridden by what .editorconfig texts say for a path: what
    /// [`EditorConfig::read`] reads, applied by [`Options::with_editorconfig`].
    ///
    /// ```
    /// use wirescript_format::Options;
    ///
    /// let text = "[*.ws]\nindent_style = tab\nmax_line_length = off\n[*.md]\nindent_size = 4\n";
    /// let options = Options::from_editorconfig("/gate.ws", &[text])?;
    /// assert_eq!(options, Options::new().indent("\t").width(None));
    /// # Ok::<(), wirescript_format::Refusal>(())
    /// ```
    ///
    /// # Errors
    /// As both.
    pub fn from_editorconfig(
        path: impl AsRef<[u8]>,
        texts: &[impl AsRef<[u8]>],
    ) -> Result<Self, Refusal> {
        Self::new().with_editorconfig(EditorConfig::read(path, texts)?)
    }
}

#[cfg(test)]
mod tests {
    use super::*;
    use alloc::format;
    use alloc::string::String;
    use alloc::vec;
    use alloc::vec::Vec;

    #[test]
    fn every_value_comes_through() {
        let text = "[*]\nindent_style=space\nindent_size=3\ntab_width=8\nmax_line_length=90\n\
                    end_of_line=crlf\ninsert_final_newline=false\n";
        let config = EditorConfig {
            indent_style: Some(IndentStyle::Spaces),
            indent_size: Some(IndentSize::Value(3)),
            tab_width: Some(8),
            max_line_length: Some(MaxLineLength::Value(90)),
            end_of_line: Some(EndOfLine::Crlf),
            insert_final_newline: Some(false),
        };
        assert_eq!(EditorConfig::read("a", &[text]), Ok(config));
        let text = "[*]\nindent_style=tab\nindent_size=tab\nmax_line_length=off\n\
                    end_of_line=cr\ninsert_final_newline=true\n";
        let config = EditorConfig {
            indent_style: Some(IndentStyle::Tabs),
            indent_size: Some(IndentSize::Tab),
            tab_width: None,
            max_line_length: Some(MaxLineLength::Off),
            end_of_line: Some(EndOfLine::Cr),
            insert_final_newline: Some(true),
        };
        assert_eq!(EditorConfig::read("a", &[text]), Ok(config));
        let none: [&str; 0] = [];
        assert_eq!(EditorConfig::read("a", &none), Ok(EditorConfig::default()));
    }

    /// Each value alone: read, to numbers and back.
    #[test]
    #[rustfmt::skip]
    fn one_value_at_a_time() {
        let (new, unset) = (EditorConfig::new, Resolved::default());
        let cases = [
            ("", new(), unset),
            ("indent_style=tab", new().with_indent_style(IndentStyle::Tabs), Resolved { style: 1, ..unset }),
            ("indent_style=space", new().with_indent_style(IndentStyle::Spaces), Resolved { style: 2, ..unset }),
            ("indent_size=tab", new().with_indent_size(IndentSize::Tab), Resolved { size_kind: 1, ..unset }),
            ("indent_size=3", new().with_indent_size(IndentSize::Value(3)),
                Resolved { size_kind: 2, size: 3, ..unset }),
            ("tab_width=8", new().with_tab_width(8), Resolved { tab_set: 1, tab: 8, ..unset }),
            ("max_line_length=off", new().with_max_line_length(MaxLineLength::Off),
                Resolved { max_kind: 1, ..unset }),
            ("max_line_length=9", new().with_max_line_length(MaxLineLength::Value(9)),
                Resolved { max_kind: 2, max: 9, ..unset }),
            ("end_of_line=lf", new().with_end_of_line(EndOfLine::Lf), Resolved { ending: 1, ..unset }),
            ("end_of_line=crlf", new().with_end_of_line(EndOfLine::Crlf), Resolved { ending: 2, ..unset }),
            ("end_of_line=cr", new().with_end_of_line(EndOfLine::Cr), Resolved { ending: 3, ..unset }),
            ("insert_final_newline=false", new().with_insert_final_newline(false),
                Resolved { newline: 1, ..unset }),
            ("insert_final_newline=true", new().with_insert_final_newline(true),
                Resolved { newline: 2, ..unset }),
        ];
        for (line, config, numbers) in cases {
            assert_eq!(EditorConfig::read("a", &[format!("[*]\n{line}\n")]), Ok(config));
            assert_eq!(config.resolved(), numbers);
            assert_eq!(EditorConfig::of(numbers), config);
        }
    }

    /// Each text speaks of its own directory; the eighth counts, a ninth doesn't.
    #[test]
    fn eight_texts() {
        let path = "0/1/2/3/4/5/6/7/8/a.ws";
        let names: Vec<&str> = path.split('/').rev().collect();
        for nth in 0..9 {
            // the path from the nth directory on, which no other directory has
            let mut relative: Vec<&str> = names[..=nth].to_vec();
            relative.reverse();
            let mut texts = vec![String::new(); 9];
            texts[nth] = format!("[/{}]\ntab_width=2\n", relative.join("/"));
            let found = EditorConfig::read(path, &texts).map(|config| config.tab_width);
            assert_eq!(found, Ok((nth < 8).then_some(2)), "{nth}");
        }
    }

    #[test]
    fn refusals_have_names() {
        let long = format!("[{}]", "é".repeat(1025));
        let fits = format!("[{}]", "é".repeat(1024));
        let nothing = Ok(EditorConfig::default());
        assert_eq!(EditorConfig::read("", &[fits]), nothing);
        assert_eq!(EditorConfig::read("", &[&long]), Err(Refusal::NameTooLong));
        let ill = Err(Refusal::NotUtf8 { prefix: 0 });
        assert_eq!(EditorConfig::read([0x80], &[&long]), ill);
        let huge = vec![b'#'; MAX_TEXT + 1];
        assert_eq!(
            EditorConfig::read([0x80], &[&huge[1..], &huge[..]]),
            Err(Refusal::ConfigTooLong)
        );
        assert_eq!(EditorConfig::read([0x80], &[&huge[1..]]), ill);
    }
}
