//! The exported functions of the proved library as they are, on slices and numbers, for callers with buffers of
//! their own. None of them asks anything of its arguments.
//!
//! A slice passes as pointer and length. After a call the scratch is all zeros, and so are the output but for the
//! text and a list but for what it was asked for. The declarations fit an archive of one interface, the one whose
//! number [`interface`] gives; another one doesn't link. With that number they may change in any release.
//!
//! ```
//! use wirescript_format::{Options, Refusal, raw};
//!
//! let source = b"f(a ,b)";
//! let (mut output, mut scratch) = ([0; 32], [0; 12 * 7 + 256]);
//! let options = Options::new();
//! let answer = raw::format(source, options.choices(), &mut output, &mut [], &mut scratch);
//! assert_eq!(Refusal::of(answer.refusal, answer.place), None);
//! assert_eq!(output[..answer.length as usize], *b"f(a, b)\n");
//! ```

use crate::Refusal;
use crate::editorconfig::TEXTS;

pub use crate::interface::interface;

/// What a formatting call comes to. `refusal` 0 is an accepted call.
#[repr(C)]
#[derive(Clone, Copy, Debug, Default, PartialEq, Eq)]
pub struct Answer {
    /// The refusal's number, 0 for none.
    pub refusal: u64,
    /// Its place, 0 for none.
    pub place: u64,
    /// The text's length in bytes.
    pub length: u64,
    /// Imports whose names were spread over lines.
    pub imports_split: u64,
    /// Blank names dropped in them.
    pub blank_names: u64,
    /// How many brackets are open at the end.
    pub open_brackets: u64,
}

/// What a formatting call with a caret comes to: with the caret's line and column in the text.
#[repr(C)]
#[derive(Clone, Copy, Debug, Default, PartialEq, Eq)]
pub struct CaretAnswer {
    /// The refusal's number, 0 for none.
    pub refusal: u64,
    /// Its place, 0 for none.
    pub place: u64,
    /// The text's length in bytes.
    pub length: u64,
    /// Imports whose names were spread over lines.
    pub imports_split: u64,
    /// Blank names dropped in them.
    pub blank_names: u64,
    /// The caret's line in the text.
    pub line: u64,
    /// Its column, in characters.
    pub column: u64,
}

/// What a formatting call with a list of changes comes to: with their number.
#[repr(C)]
#[derive(Clone, Copy, Debug, Default, PartialEq, Eq)]
pub struct ChangesAnswer {
    /// The refusal's number, 0 for none.
    pub refusal: u64,
    /// Its place, 0 for none.
    pub place: u64,
    /// The text's length in bytes.
    pub length: u64,
    /// Imports whose names were spread over lines.
    pub imports_split: u64,
    /// Blank names dropped in them.
    pub blank_names: u64,
    /// How many changes there are.
    pub changes: u64,
}

/// What a check comes to: `formatted` 1 yes, 0 no.
#[repr(C)]
#[derive(Clone, Copy, Debug, Default, PartialEq, Eq)]
pub struct CheckAnswer {
    /// The refusal's number, 0 for none.
    pub refusal: u64,
    /// Its place, 0 for none.
    pub place: u64,
    /// Whether the source is formatted.
    pub formatted: u64,
    /// How many lines were read.
    pub lines_read: u64,
}

/// What asking for a text kind comes to: 0 code, 1 string, 2 comment.
#[repr(C)]
#[derive(Clone, Copy, Debug, Default, PartialEq, Eq)]
pub struct Kind {
    /// The refusal's number, 0 for none.
    pub refusal: u64,
    /// Its place, 0 for none.
    pub place: u64,
    /// The kind.
    pub kind: u64,
}

/// What asking for the text kinds of a list of places comes to.
#[repr(C)]
#[derive(Clone, Copy, Debug, Default, PartialEq, Eq)]
pub struct Kinds {
    /// The refusal's number, 0 for none.
    pub refusal: u64,
    /// Its place, 0 for none.
    pub place: u64,
    /// How many lines were read.
    pub lines_classified: u64,
}

/// Options as numbers. `width_set`: 0 no width, 1 the width. `line_ending`: 0 kept, 1 LF,
/// 2 CRLF. `final_newline`: 0 as the source, 1 always, 2 never. Other numbers name no choice.
/// `ruler_tab`: 0 a tab is one column, else how far apart the ruler's tab stops are, up to 16.
/// `strengths`: a table as [`Options::strengths`](crate::Options::strengths) says. The setting steps
/// leave the ruler tab and the table as they are.
#[derive(Clone, Copy, Debug, PartialEq, Eq)]
pub struct Choices<'a> {
    /// One level of indentation.
    pub indent: &'a [u8],
    /// Whether there is a print width.
    pub width_set: u64,
    /// The print width, in UTF-16 units.
    pub width: u64,
    /// How lines end.
    pub line_ending: u64,
    /// Whether the text ends in a line ending.
    pub final_newline: u64,
    /// The ruler's tab.
    pub ruler_tab: u64,
    /// The table of strengths.
    pub strengths: &'a [u8],
}

/// What a setting step comes to: the changed options, whose indent is in the output; with a
/// refusal, zeros.
#[repr(C)]
#[derive(Clone, Copy, Debug, Default, PartialEq, Eq)]
pub struct Settings {
    /// The refusal's number, 0 for none.
    pub refusal: u64,
    /// Its place, 0 for none.
    pub place: u64,
    /// The indent's length in bytes.
    pub indent_len: u64,
    /// Whether there is a print width.
    pub width_set: u64,
    /// The print width.
    pub width: u64,
    /// How lines end.
    pub line_ending: u64,
    /// Whether the text ends in a line ending.
    pub final_newline: u64,
}

/// The resolved values of .editorconfig as numbers; 0 is unset. `style`: 1 tabs, 2 spaces.
/// `size_kind`: 1 the tab width, 2 the size. `tab_set`: 1 the width. `max_kind`: 1 `off`, 2 the
/// length. `ending`: 1 LF, 2 CRLF, 3 CR. `newline`: 1 false, 2 true.
#[repr(C)]
#[derive(Clone, Copy, Debug, Default, PartialEq, Eq)]
pub struct Resolved {
    /// `indent_style`.
    pub style: u64,
    /// What `indent_size` is.
    pub size_kind: u64,
    /// Its size.
    pub size: u64,
    /// Whether `tab_width` is set.
    pub tab_set: u64,
    /// `tab_width`.
    pub tab: u64,
    /// What `max_line_length` is.
    pub max_kind: u64,
    /// Its length.
    pub max: u64,
    /// `end_of_line`.
    pub ending: u64,
    /// `insert_final_newline`.
    pub newline: u64,
}

/// What reading .editorconfig texts comes to; with a refusal, its values are zeros.
#[repr(C)]
#[derive(Clone, Copy, Debug, Default, PartialEq, Eq)]
pub struct ConfigAnswer {
    /// The refusal's number, 0 for none.
    pub refusal: u64,
    /// Its place, 0 for none.
    pub place: u64,
    /// The values.
    pub values: Resolved,
}

/// What a grouping call comes to. `refusal` 0 is an accepted call.
#[repr(C)]
#[derive(Clone, Copy, Debug, Default, PartialEq, Eq)]
pub struct GroupAnswer {
    /// The refusal's number, 0 for none.
    pub refusal: u64,
    /// Its place, 0 for none.
    pub place: u64,
    /// The text's length in bytes.
    pub length: u64,
}

/// An answer that says whether the call was refused.
pub(crate) trait Refusable: Sized {
    fn refusal(&self) -> Option<Refusal>;

    fn accepted(self) -> Result<Self, Refusal> {
        self.refusal().map_or(Ok(self), Err)
    }
}

macro_rules! refusable {
    ($($answer:ty),+) => {
        $(impl Refusable for $answer {
            fn refusal(&self) -> Option<Refusal> {
                Refusal::of(self.refusal, self.place)
            }
        })+
    };
}

#[rustfmt::skip]
refusable!(
    Answer, CaretAnswer, ChangesAnswer, CheckAnswer, ConfigAnswer, GroupAnswer, Kind, Kinds, Settings
);

mod linked {
    #[rustfmt::skip]
    use super::{
        Answer, CaretAnswer, ChangesAnswer, CheckAnswer, ConfigAnswer, GroupAnswer, Kind, Kinds, Settings,
    };

    #[rustfmt::skip]
    unsafe extern "C" {
        pub fn wirescript_format(
            source: *const u8, source_length: usize, indent: *const u8, indent_length: usize,
            width_set: u64, width: u64, line_ending: u64, final_newline: u64, ruler_tab: u64,
            strengths: *const u8, strengths_length: usize,
            output: *mut u8, output_length: usize, opened: *mut u64, opened_length: usize,
            scratch: *mut u8, scratch_length: usize,
        ) -> Answer;
        pub fn wirescript_format_caret(
            source: *const u8, source_length: usize, indent: *const u8, indent_length: usize,
            width_set: u64, width: u64, line_ending: u64, final_newline: u64, ruler_tab: u64,
            strengths: *const u8, strengths_length: usize, line: u64, column: u64,
            output: *mut u8, output_length: usize, scratch: *mut u8, scratch_length: usize,
        ) -> CaretAnswer;
        pub fn wirescript_format_changes(
            source: *const u8, source_length: usize, indent: *const u8, indent_length: usize,
            width_set: u64, width: u64, line_ending: u64, final_newline: u64, ruler_tab: u64,
            strengths: *const u8, strengths_length: usize,
            output: *mut u8, output_length: usize, changes: *mut u64, changes_length: usize,
            scratch: *mut u8, scratch_length: usize,
        ) -> ChangesAnswer;
        pub fn wirescript_is_formatted(
            source: *const u8, source_length: usize, indent: *const u8, indent_length: usize,
            width_set: u64, width: u64, line_ending: u64, final_newline: u64, ruler_tab: u64,
            strengths: *const u8, strengths_length: usize, scratch: *mut u8, scratch_length: usize,
        ) -> CheckAnswer;
        pub fn wirescript_text_kind_at(
            source: *const u8, source_length: usize, line: u64, column: u64,
            scratch: *mut u8, scratch_length: usize,
        ) -> Kind;
        pub fn wirescript_text_kinds(
            source: *const u8, source_length: usize, places: *const u64, places_length: usize,
            kinds: *mut u8, kinds_length: usize, scratch: *mut u8, scratch_length: usize,
        ) -> Kinds;
        pub fn wirescript_indent_with(
            indent: *const u8, indent_length: usize,
            width_set: u64, width: u64, line_ending: u64, final_newline: u64,
            tabs: u64, size: u64, output: *mut u8, output_length: usize,
        ) -> Settings;
        pub fn wirescript_editorconfig(
            indent: *const u8, indent_length: usize,
            width_set: u64, width: u64, line_ending: u64, final_newline: u64,
            style: u64, size_kind: u64, size: u64, tab_set: u64, tab: u64,
            max_kind: u64, max: u64, ending: u64, newline: u64,
            output: *mut u8, output_length: usize,
        ) -> Settings;
        pub fn wirescript_group(
            source: *const u8, source_length: usize,
            output: *mut u8, output_length: usize, scratch: *mut u8, scratch_length: usize,
        ) -> GroupAnswer;
        pub fn wirescript_read_editorconfig(
            path: *const u8, path_length: usize,
            text_1: *const u8, length_1: usize, text_2: *const u8, length_2: usize,
            text_3: *const u8, length_3: usize, text_4: *const u8, length_4: usize,
            text_5: *const u8, length_5: usize, text_6: *const u8, length_6: usize,
            text_7: *const u8, length_7: usize, text_8: *const u8, length_8: usize,
        ) -> ConfigAnswer;
    }
}

/// Calls an exported function that takes options: what stands before them, the options, the numbers behind
/// them and the slices that it is lent.
macro_rules! with_choices {
    ($name:ident, ($($before:expr),*), $s:ident, ($($number:expr),*), ($($lent:ident),+)) => {
        linked::$name(
            $($before,)*
            $s.indent.as_ptr(),
            $s.indent.len(),
            $s.width_set,
            $s.width,
            $s.line_ending,
            $s.final_newline,
            $($number,)*
            $($lent.as_mut_ptr(), $lent.len()),+
        )
    };
}

/// Calls an exported function that formats.
macro_rules! formatting {
    ($name:ident, $source:ident, $s:ident, ($($number:expr),*), $lent:tt) => {
        with_choices!(
            $name,
            ($source.as_ptr(), $source.len()),
            $s,
            ($s.ruler_tab, $s.strengths.as_ptr(), $s.strengths.len() $(, $number)*),
            $lent
        )
    };
}

/// Formats `source` into `output`. `opened` gets the source lines, from 0, of the brackets that are
/// still open at the end, the oldest first, as many as it has room for, then zeros.
#[must_use]
pub fn format(
    source: &[u8],
    s: Choices,
    output: &mut [u8],
    opened: &mut [u64],
    scratch: &mut [u8],
) -> Answer {
    // SAFETY: the pointers and lengths are those of slices; those that are written are lent
    // alone, and the function is proved to stay inside them for any arguments.
    unsafe { formatting!(wirescript_format, source, s, (), (output, opened, scratch)) }
}

/// Formats `source` into `output`, and moves the caret from a line and a character column of the
/// source, both from 0, to one of the text.
#[must_use]
#[rustfmt::skip]
pub fn format_caret(
    source: &[u8], s: Choices, line: u64, column: u64, output: &mut [u8], scratch: &mut [u8],
) -> CaretAnswer {
    // SAFETY: as for `format`.
    unsafe { formatting!(wirescript_format_caret, source, s, (line, column), (output, scratch)) }
}

/// Formats `source` into `output`, and lists the changes from it to the text, four numbers to each:
/// byte offset in the source, bytes removed, byte offset in the text, bytes put in; then zeros.
#[must_use]
#[rustfmt::skip]
pub fn format_changes(
    source: &[u8], s: Choices, output: &mut [u8], changes: &mut [u64], scratch: &mut [u8],
) -> ChangesAnswer {
    // SAFETY: as for `format`.
    unsafe { formatting!(wirescript_format_changes, source, s, (), (output, changes, scratch)) }
}

/// Whether the text of `source` would equal it. A line ending that is kept is refused.
#[must_use]
pub fn is_formatted(source: &[u8], s: Choices, scratch: &mut [u8]) -> CheckAnswer {
    // SAFETY: as for `format`.
    unsafe { formatting!(wirescript_is_formatted, source, s, (), (scratch)) }
}

/// The text kind at a line and a character column, both from 0.
#[must_use]
pub fn text_kind_at(source: &[u8], line: u64, column: u64, scratch: &mut [u8]) -> Kind {
    let (work, left) = (scratch.as_mut_ptr(), scratch.len());
    // SAFETY: as for `format`.
    unsafe {
        linked::wirescript_text_kind_at(source.as_ptr(), source.len(), line, column, work, left)
    }
}

/// The text kinds of a list of places, line and character column in turn, in ascending order: a
/// byte for each in `kinds`, numbered as by [`text_kind_at`], then zeros.
#[must_use]
pub fn text_kinds(source: &[u8], places: &[u64], kinds: &mut [u8], scratch: &mut [u8]) -> Kinds {
    let (to, room) = (kinds.as_mut_ptr(), kinds.len());
    let (work, left) = (scratch.as_mut_ptr(), scratch.len());
    let (list, numbers) = (places.as_ptr(), places.len());
    // SAFETY: as for `format`.
    unsafe {
        linked::wirescript_text_kinds(
            source.as_ptr(),
            source.len(),
            list,
            numbers,
            to,
            room,
            work,
            left,
        )
    }
}

/// One tab (`tabs` 1), or `size` spaces (`tabs` 0), as the indent.
#[must_use]
pub fn indent_with(s: Choices, tabs: u64, size: u64, output: &mut [u8]) -> Settings {
    // SAFETY: as for `format`.
    unsafe { with_choices!(wirescript_indent_with, (), s, (tabs, size), (output)) }
}

/// The options overridden by resolved values of .editorconfig.
#[must_use]
#[rustfmt::skip]
pub fn editorconfig(s: Choices, r: Resolved, output: &mut [u8]) -> Settings {
    // SAFETY: as for `format`.
    unsafe {
        with_choices!(wirescript_editorconfig, (), s, (
            r.style, r.size_kind, r.size, r.tab_set, r.tab, r.max_kind, r.max, r.ending, r.newline
        ), (output))
    }
}

/// How the expression `source` groups: its text goes to the output.
#[must_use]
#[rustfmt::skip]
pub fn group(source: &[u8], output: &mut [u8], scratch: &mut [u8]) -> GroupAnswer {
    // SAFETY: as for `format`.
    unsafe {
        linked::wirescript_group(
            source.as_ptr(), source.len(),
            output.as_mut_ptr(), output.len(), scratch.as_mut_ptr(), scratch.len(),
        )
    }
}

/// The values that .editorconfig texts set for a path: the texts of its directories, the nearest first.
#[must_use]
#[rustfmt::skip]
pub fn read_editorconfig(path: &[u8], texts: [&[u8]; TEXTS]) -> ConfigAnswer {
    let [t1, t2, t3, t4, t5, t6, t7, t8] = texts;
    // SAFETY: each pointer and length is one slice, and the function only reads them.
    unsafe {
        linked::wirescript_read_editorconfig(
            path.as_ptr(), path.len(),
            t1.as_ptr(), t1.len(), t2.as_ptr(), t2.len(), t3.as_ptr(), t3.len(), t4.as_ptr(), t4.len(),
            t5.as_ptr(), t5.len(), t6.as_ptr(), t6.len(), t7.as_ptr(), t7.len(), t8.as_ptr(), t8.len(),
        )
    }
}
