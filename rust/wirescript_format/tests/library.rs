//! The crate over the linked library.

use wirescript_format::{
    EditorConfig, EndOfLine, FinalNewline, Formatter, IndentSize, IndentStyle, LineEnding,
    MAX_DEPTH, MAX_INDENT, MAX_RULER, MAX_SOURCE, MaxLineLength, Operator, Options, Refusal,
    Strengths, TextKind, apply, editorconfig::MAX_TEXT, format, format_changes, format_stable,
    format_with_caret, group, is_formatted, text_kind_at, text_kinds,
};

fn text(source: &str, options: &Options) -> String {
    format(source, options).expect("accepted").text
}

#[test]
fn formats() {
    let options = Options::new();
    assert_eq!(text("", &options), "\n");
    assert_eq!(text("f(a ,b)", &options), "f(a, b)\n");
    assert_eq!(text("}\nelse {", &options), "} else {\n");
    assert_eq!(text("{\na", &options.clone().indent("\t")), "{\n\ta\n");
    let ending = |choice| options.clone().final_newline(choice);
    assert_eq!(text("a", &ending(FinalNewline::AsSource)), "a");
    assert_eq!(text("a\r\n", &ending(FinalNewline::AsSource)), "a\r\n");
    assert_eq!(text("a\r\n\r\n", &ending(FinalNewline::Never)), "a");
    assert_eq!(text("\n", &ending(FinalNewline::Never)), "");
    let crlf = options.clone().line_ending(LineEnding::Crlf);
    assert_eq!(text("a\nb", &crlf), "a\r\nb\r\n");
    let lf = options.clone().line_ending(LineEnding::Lf);
    assert_eq!(text("a\r\nb\r\n", &lf), "a\nb\n");
    assert_eq!(
        text("a + b*c", &options.clone().width(Some(6))),
        "a\n  + b*c\n"
    );
    assert_eq!(text("a + b*c", &options.width(None)), "a + b*c\n");
}

/// The two counts are not taken for each other: where they are equal nothing would show it.
#[test]
fn counts_imports_and_blank_names() {
    let options = Options::new().width(Some(10));
    let import = |names: &str| format!("import {{{names}}} from \"l\"\n");
    let broken = "import {\n  a, b,\n} from \"l\"\n";
    let counted = |source: &str| {
        let kept = format(source, &options).expect("accepted");
        let mut formatter = Formatter::new();
        let lent = formatter.format(source, &options).expect("accepted");
        assert_eq!(lent.text, kept.text);
        assert_eq!(lent.imports_split, kept.imports_split);
        assert_eq!(lent.blank_names, kept.blank_names);
        (kept.text, kept.imports_split, kept.blank_names)
    };
    assert_eq!(counted(&import("a,b")), (broken.into(), 1, 0));
    assert_eq!(counted(&import("a,,b")), (broken.into(), 1, 1));
    assert_eq!(counted(&import("a,,,b")), (broken.into(), 1, 2));
    let three = import("a,b") + &import(",a,b") + &import("a,b");
    assert_eq!(counted(&three), (broken.repeat(3), 3, 1));
}

/// An import that is split with two blank names in it, and three brackets that stay open on two lines.
const UNTIDY: &str = "import {a,,,b} from \"l\"\n(\n[{";
const TIDY: &str = "import {\n  a, b,\n} from \"l\"\n(\n  [{\n";

/// Every field of every answer, each with a number of its own.
#[test]
fn every_field() {
    let options = Options::new().width(Some(10));
    let whole = format(UNTIDY, &options).expect("accepted");
    assert_eq!(whole.text, TIDY);
    assert_eq!((whole.imports_split, whole.blank_names), (1, 2));
    assert_eq!(
        (whole.open_brackets, &whole.opened[..]),
        (3, &[1, 2, 2][..])
    );
    let moved = format_with_caret(UNTIDY, &options, 2, 1).expect("accepted");
    assert_eq!(moved.text, TIDY);
    assert_eq!((moved.imports_split, moved.blank_names), (1, 2));
    assert_eq!((moved.line, moved.column), (4, 3));
    let found = format_changes(UNTIDY, &options).expect("accepted");
    assert_eq!((found.imports_split, found.blank_names), (1, 2));
    let change = |range, text: &str| wirescript_format::Change {
        range,
        text: text.to_owned(),
    };
    let wanted = [
        change(8..8, "\n  "),
        change(9..12, ", "),
        change(13..13, ",\n"),
        change(25..26, "\n  "),
        change(28..28, "\n"),
    ];
    assert_eq!(found.changes, wanted);
    let stable = format_stable(UNTIDY, &options).expect("accepted");
    assert_eq!((&*stable.text, stable.passes), (TIDY, 2));
    assert_eq!((stable.imports_split, stable.blank_names), (1, 2));
    let mut formatter = Formatter::new();
    let lent = formatter.format_stable(UNTIDY, &options).expect("accepted");
    assert_eq!((lent.text, lent.passes, lent.stable), (TIDY, 2, true));
    assert_eq!((lent.imports_split, lent.blank_names), (1, 2));
}

/// What the setters set, the getters give and the calls take.
#[test]
fn every_option() {
    let options = Options::new();
    assert_eq!(
        (options.get_indent(), options.get_width()),
        ("  ", Some(100))
    );
    assert_eq!(options.get_line_ending(), LineEnding::Kept);
    assert_eq!(options.get_final_newline(), FinalNewline::Always);
    assert_eq!(options.get_ruler_tab(), 0);
    assert_eq!(options.get_strengths(), &Strengths::new());
    let strengths = Strengths::new().with(Operator::Add, 13);
    let options = options
        .indent("\t")
        .width(Some(12))
        .line_ending(LineEnding::Crlf)
        .final_newline(FinalNewline::Never)
        .ruler_tab(8)
        .strengths(strengths.clone());
    assert_eq!(
        (options.get_indent(), options.get_width()),
        ("\t", Some(12))
    );
    assert_eq!(options.get_line_ending(), LineEnding::Crlf);
    assert_eq!(options.get_final_newline(), FinalNewline::Never);
    assert_eq!(options.get_ruler_tab(), 8);
    assert_eq!(options.get_strengths(), &strengths);
    // the tab of the indent takes 8 columns, so that 13 are too many; `*` is looser than `+`
    let wanted = "{\r\n\ta+b\r\n\t\t*c";
    assert_eq!(text("{\na+b*c", &options), wanted);
    assert_eq!(
        text("{\na+b*c", &options.clone().ruler_tab(7)),
        "{\r\n\ta+b*c"
    );
    let moved = format_with_caret("{\na+b*c", &options, 1, 4).expect("accepted");
    assert_eq!((&*moved.text, moved.line, moved.column), (wanted, 2, 3));
    let found = format_changes("{\na+b*c", &options).expect("accepted");
    assert_eq!(apply("{\na+b*c", &found.changes), wanted);
}

/// Many open brackets between a few, in lists with room for all and for two.
#[test]
fn lists_open_brackets() {
    let options = Options::new();
    let mut formatter = Formatter::new().listed(2);
    let mut lines = |source: &str| {
        let all = format(source, &options).expect("accepted");
        let two = formatter.format(source, &options).expect("accepted");
        assert_eq!(all.open_brackets, all.opened.len() as u64);
        assert_eq!(two.open_brackets, all.open_brackets);
        assert_eq!(two.opened, &all.opened[..all.opened.len().min(2)]);
        all.opened
    };
    assert_eq!(lines("((\n["), [0, 0, 1]);
    assert_eq!(lines(&"(\n".repeat(300)), (0..300).collect::<Vec<u64>>());
    assert_eq!(lines("{\nif a {\n}\nelse {"), [0, 3]);
    assert_eq!(lines("(\n]"), []);
}

#[test]
fn refuses() {
    let options = Options::new();
    let long = "a".repeat(MAX_SOURCE + 1);
    assert_eq!(format(long, &options), Err(Refusal::SourceTooLong));
    assert_eq!(
        format("a", &options.clone().indent("q")),
        Err(Refusal::BadOption)
    );
    assert_eq!(
        format(b"a\xff", &options),
        Err(Refusal::NotUtf8 { prefix: 1 })
    );
    let table = options.clone().strengths([0x11; 10]);
    assert_eq!(format(b"\xff", &table), Err(Refusal::StrengthsLength));
    let table = options.clone().strengths([0x11; 11]);
    assert_eq!(format(b"\xff", &table), Err(Refusal::StrengthsBits));
    // 300 lines, much more than the first guess
    let deep = "(\n".repeat(300);
    let exact = Formatter::new()
        .most(90_300)
        .format(&deep, &options)
        .map(|f| f.text.len());
    assert_eq!(exact, Ok(90_300));
    let short = Formatter::new()
        .most(90_299)
        .format(&deep, &options)
        .map(|f| f.text.len());
    assert_eq!(short, Err(Refusal::OutputShort { needed: 90_300 }));
    let mut small = Formatter::new().most(3);
    assert_eq!(
        small.format("abc", &options),
        Err(Refusal::OutputShort { needed: 4 })
    );
    assert_eq!(small.format("ab", &options).map(|f| f.text), Ok("ab\n"));
}

/// The limits that the crate names are the library's: at each a call passes, and one over is refused.
#[test]
fn limits() {
    let options = Options::new();
    let indent = |bytes| format("", &options.clone().indent(" ".repeat(bytes)));
    assert!(indent(MAX_INDENT).is_ok());
    assert_eq!(indent(MAX_INDENT + 1), Err(Refusal::BadOption));
    let ruler = |columns| format("", &options.clone().ruler_tab(columns));
    assert!(ruler(MAX_RULER).is_ok());
    assert_eq!(ruler(MAX_RULER + 1), Err(Refusal::RulerTooWide));
    let long = |bytes| text_kind_at("a".repeat(bytes), 0, 0);
    assert_eq!(long(MAX_SOURCE), Ok(TextKind::Code));
    assert_eq!(long(MAX_SOURCE + 1), Err(Refusal::SourceTooLong));
    let deep = |brackets| group("(".repeat(brackets) + "a" + &")".repeat(brackets));
    let place = MAX_DEPTH as u64;
    assert_eq!(deep(MAX_DEPTH).as_deref(), Ok("a"));
    assert_eq!(deep(MAX_DEPTH + 1), Err(Refusal::TooDeep { place }));
    let config = |bytes| EditorConfig::read("a", &["#".repeat(bytes)]);
    assert_eq!(config(MAX_TEXT), Ok(EditorConfig::new()));
    assert_eq!(config(MAX_TEXT + 1), Err(Refusal::ConfigTooLong));
}

/// A file that is too long is read as far as it takes to refuse it.
#[cfg(feature = "std")]
#[test]
fn a_file_that_is_too_long() {
    let folder = std::path::Path::new(env!("CARGO_TARGET_TMPDIR")).join("too_long");
    std::fs::create_dir_all(&folder).expect("made");
    std::fs::write(folder.join(".editorconfig"), "#".repeat(MAX_TEXT + 9)).expect("written");
    let files = wirescript_format::editorconfig::find(folder.join("a.ws")).expect("read");
    assert_eq!(files.texts[0].len(), MAX_TEXT + 1);
    let refused = Options::from_editorconfig(&files.path, &files.texts);
    assert_eq!(refused, Err(Refusal::ConfigTooLong));
}

/// A path with `..` in it has the files of the folders that it ends in, not of those that it passes through.
#[cfg(feature = "std")]
#[test]
fn a_path_through_another_folder() {
    let folder = std::path::Path::new(env!("CARGO_TARGET_TMPDIR")).join("passed_through");
    std::fs::create_dir_all(folder.join("b")).expect("made");
    let folder = folder.canonicalize().expect("made");
    std::fs::write(folder.join(".editorconfig"), "# here").expect("written");
    std::fs::write(folder.join("b/.editorconfig"), "# passed through").expect("written");
    let find = |name: &str| wirescript_format::editorconfig::find(folder.join(name)).expect("read");
    assert_eq!(find("b/../a.ws"), find("a.ws"));
    assert_eq!(find("b/../a.ws").texts[0], b"# here");
    assert_eq!(find("b/a.ws").texts[0], b"# passed through");
}

/// The limits that a formatter sets by itself.
#[test]
fn defaults_of_a_formatter() {
    let mut formatter = Formatter::new();
    assert_eq!(
        (formatter.get_most(), formatter.get_listed()),
        (67_108_864, 1000)
    );
    let open = "(".repeat(1001);
    let listed = formatter.format(&open, &Options::new()).expect("accepted");
    assert_eq!((listed.open_brackets, listed.opened.len()), (1001, 1000));
    // n levels, each line with two bytes and two for each level above it, come to n * (n + 1)
    let refused = formatter.format("(\n".repeat(8192), &Options::new());
    assert_eq!(refused, Err(Refusal::OutputShort { needed: 67_117_056 }));
}

/// A text much longer than its source, between short ones, in the same buffers.
#[test]
fn buffers_are_reused() {
    let options = Options::new();
    let mut formatter = Formatter::new();
    let deep = "(\n".repeat(300);
    let rest: usize = (0..300).map(|level| 2 * level + 2).sum();
    for _ in 0..2 {
        assert_eq!(
            formatter.format("a ,b", &options).map(|f| f.text),
            Ok("a, b\n")
        );
        let length = formatter.format(&deep, &options).map(|f| f.text.len());
        assert_eq!(length, Ok(rest));
    }
}

#[test]
fn tells_text_kinds() {
    let source = "a \"s${b}\" // c";
    let at = |column| text_kind_at(source, 0, column);
    assert_eq!(at(0), Ok(TextKind::Code));
    assert_eq!(at(3), Ok(TextKind::Str));
    assert_eq!(at(4), Ok(TextKind::Str));
    assert_eq!(at(5), Ok(TextKind::Code));
    assert_eq!(at(10), Ok(TextKind::Comment));
    assert_eq!(at(99), Ok(TextKind::Code));
    assert_eq!(
        text_kind_at(b"\xff", 0, 0),
        Err(Refusal::NotUtf8 { prefix: 0 })
    );
}

#[test]
fn setting_steps() {
    let options = Options::new();
    assert_eq!(
        options.indent_with(true, 8),
        Ok(options.clone().indent("\t"))
    );
    assert_eq!(
        options.indent_with(false, 3),
        Ok(options.clone().indent("   "))
    );
    let config = EditorConfig::new()
        .with_indent_style(IndentStyle::Spaces)
        .with_indent_size(IndentSize::Tab)
        .with_tab_width(4)
        .with_max_line_length(MaxLineLength::Off)
        .with_end_of_line(EndOfLine::Crlf)
        .with_insert_final_newline(false);
    let wanted = Options::new()
        .indent("    ")
        .width(None)
        .line_ending(LineEnding::Crlf)
        .final_newline(FinalNewline::Never);
    assert_eq!(options.with_editorconfig(config), Ok(wanted));
    let unset = EditorConfig::default();
    assert_eq!(options.with_editorconfig(unset), Ok(options));
}

#[test]
fn setting_steps_with_sizes() {
    let config = EditorConfig::new()
        .with_indent_style(IndentStyle::Spaces)
        .with_indent_size(IndentSize::Value(3))
        .with_tab_width(8)
        .with_max_line_length(MaxLineLength::Value(70))
        .with_end_of_line(EndOfLine::Lf)
        .with_insert_final_newline(true);
    let old = Options::new().final_newline(FinalNewline::AsSource);
    let wanted = Options::new()
        .indent("   ")
        .width(Some(70))
        .line_ending(LineEnding::Lf);
    assert_eq!(old.with_editorconfig(config), Ok(wanted));
}

/// Each value alone changes its own option.
#[test]
fn setting_steps_with_one_value() {
    let (new, options) = (EditorConfig::new, Options::new);
    let newline = options().final_newline(FinalNewline::AsSource);
    let cases = [
        (
            new().with_indent_style(IndentStyle::Tabs),
            options().indent("\t"),
        ),
        (
            new().with_indent_size(IndentSize::Value(4)),
            options().indent("    "),
        ),
        (new().with_tab_width(3), options().indent("   ")),
        (
            new().with_max_line_length(MaxLineLength::Off),
            options().width(None),
        ),
        (
            new().with_max_line_length(MaxLineLength::Value(7)),
            options().width(Some(7)),
        ),
        (
            new().with_end_of_line(EndOfLine::Lf),
            options().line_ending(LineEnding::Lf),
        ),
        (
            new().with_end_of_line(EndOfLine::Crlf),
            options().line_ending(LineEnding::Crlf),
        ),
        (new().with_end_of_line(EndOfLine::Cr), options()),
        (
            new().with_insert_final_newline(false),
            options().final_newline(FinalNewline::Never),
        ),
    ];
    for (config, wanted) in cases {
        assert_eq!(
            options().with_editorconfig(config),
            Ok(wanted),
            "{config:?}"
        );
    }
    let always = new().with_insert_final_newline(true);
    assert_eq!(newline.with_editorconfig(always), Ok(options()));
}

/// The options that a refused step was asked of are still there, and still serve.
#[test]
fn a_refused_step_changes_nothing() {
    let options = Options::new().indent("\t").width(None);
    let before = options.clone();
    assert_eq!(options.indent_with(true, 65), Err(Refusal::BadOption));
    let config = EditorConfig::new().with_indent_size(IndentSize::Value(65));
    assert_eq!(options.with_editorconfig(config), Err(Refusal::BadOption));
    assert_eq!(options, before);
    assert_eq!(text("{\na", &options), "{\n\ta\n");
    let bad = Options::new().indent("q");
    assert_eq!(bad.indent_with(false, 2), Err(Refusal::BadOption));
    assert_eq!(bad, Options::new().indent("q"));
}

/// Before a letter, in the white space behind one, and where a text grows beyond the first guess.
#[test]
fn moves_the_caret() {
    let mut formatter = Formatter::new();
    let options = Options::new();
    let deep = "(\n".repeat(300) + "a";
    let moved = formatter.format_with_caret(&deep, &options, 300, 0);
    let place = moved.map(|m| (m.line, m.column));
    assert_eq!(place, Ok((300, 600)));
    for (line, column, to) in [
        (0, 0, (0, 0)),
        (0, 2, (0, 1)),
        (1, 0, (0, 1)),
        (1, 1, (1, 2)),
        (1, 2, (1, 3)),
    ] {
        let moved = formatter.format_with_caret("{ ,\n\t\u{1f600}", &options, line, column);
        let moved = moved.map(|m| (m.text, (m.line, m.column)));
        assert_eq!(moved, Ok(("{,\n  \u{1f600}\n", to)), "{line} {column}");
    }
    for (line, column) in [(0, 4), (2, 0), (u64::MAX, u64::MAX)] {
        let none = formatter.format_with_caret("{ ,\na", &options, line, column);
        assert_eq!(none, Err(Refusal::NoPlace));
    }
}

/// Changes carried out give the text; more of them than the first list holds, too.
#[test]
fn lists_changes() {
    let mut formatter = Formatter::new();
    let sources = [
        String::new(),
        " ,\u{3000}".into(),
        "a ,b\r\n\r\n\r\n c".into(),
        format!("import {{{}}}", "name , ,".repeat(40)),
        "(,".repeat(600),
        "(\n".repeat(300),
    ];
    for ending in [LineEnding::Lf, LineEnding::Crlf] {
        let options = Options::new().line_ending(ending);
        for source in &sources {
            let whole = format(source, &options).expect("a text");
            let found = formatter.format_changes(source, &options).expect("changes");
            assert_eq!(apply(source, &found.changes), whole.text);
            assert_eq!(found.imports_split, whole.imports_split);
            assert_eq!(found.blank_names, whole.blank_names);
            for change in &found.changes {
                let unkept = |text: &str| text.chars().all(|c| c.is_whitespace() || c == ',');
                assert!(unkept(&source[change.range.clone()]) && unkept(change.text));
            }
            let again = formatter.format_changes(&whole.text, &options);
            assert_eq!(again.map(|found| found.changes.len()), Ok(0));
        }
    }
    let text = formatter.format_changes(b"a\xff", &Options::new());
    assert_eq!(text, Err(Refusal::NotUtf8 { prefix: 1 }));
}

/// Passes from one to five, and a source that five do not settle: each text is that of one pass more.
#[test]
fn formats_until_nothing_changes() {
    let sources = [
        ("a\n", 0, 1),
        ("a ,b", 100, 2),
        ("price -5", 6, 3),
        ("+*", 0, 4),
        ("a-*", 0, 5),
    ];
    let mut formatter = Formatter::new();
    for (source, width, passes) in sources {
        let options = Options::new().width(Some(width));
        let stable = formatter.format_stable(source, &options).expect("accepted");
        assert_eq!((stable.passes, stable.stable), (passes, true), "{source}");
        let last = (0..passes).fold(source.to_owned(), |source, _| text(&source, &options));
        assert_eq!(stable.text, last, "{source}");
        assert_eq!(text(&last, &options), last, "{source}");
    }
    let (source, options) = ("import {*-5+**,{then  }", Options::new().width(Some(1)));
    let stable = format_stable(source, &options).expect("accepted");
    assert_eq!((stable.passes, stable.stable), (Formatter::PASSES, false));
    assert_eq!((stable.imports_split, stable.blank_names), (1, 0));
    let fourth = (0..4).fold(source.to_owned(), |source, _| text(&source, &options));
    assert_ne!(stable.text, fourth);
    assert_eq!(stable.text, text(&fourth, &options));
    let refused = formatter.format_stable(b"a\xff", &Options::new());
    assert_eq!(refused, Err(Refusal::NotUtf8 { prefix: 1 }));
    let again = formatter.format_stable("a ,b", &Options::new());
    assert_eq!(again.map(|stable| stable.text), Ok("a, b\n"));
}

/// The formatter's own buffers serve for groups too, of texts longer than the first guess.
#[test]
fn groups() {
    let mut formatter = Formatter::new();
    let chain = "a".to_owned() + &"+a".repeat(500);
    let wanted = "(".repeat(500) + "a" + &" + a)".repeat(500);
    assert_eq!(formatter.group(&chain), Ok(&*wanted));
    assert_eq!(formatter.group("a"), Ok("a"));
    assert_eq!(group(&chain), Ok(wanted));
    let deep = "(".repeat(65) + "a";
    assert_eq!(group(deep), Err(Refusal::TooDeep { place: 64 }));
    assert_eq!(group("a = b"), Err(Refusal::NotExpression { place: 3 }));
    assert_eq!(group(b"a\xff"), Err(Refusal::NotUtf8 { prefix: 1 }));
    let mut small = Formatter::new().most(4);
    let refused = small.group("a+b");
    assert_eq!(refused, Err(Refusal::OutputShort { needed: 7 }));
}

/// Line and column are not taken for each other, and each place gets its own kind.
#[test]
fn tells_text_kinds_of_places() {
    let source = "'s'\n// c\n\nd";
    let places = [
        (0, 1),
        (1, 0),
        (1, 3),
        (2, 0),
        (3, 0),
        (3, 9),
        (u64::MAX, 0),
    ];
    let kinds = text_kinds(source, &places).expect("accepted");
    let wanted = places.map(|(line, column)| text_kind_at(source, line, column));
    assert_eq!(kinds.into_iter().map(Ok).collect::<Vec<_>>(), wanted);
    assert_eq!(wanted[..2], [Ok(TextKind::Str), Ok(TextKind::Comment)]);
    assert_eq!(text_kind_at(source, 1, 0), Ok(TextKind::Comment));
    assert_eq!(text_kind_at(source, 0, 1), Ok(TextKind::Str));
    let unordered = Err(Refusal::PlacesUnordered);
    assert_eq!(text_kinds(source, &[(0, 2), (0, 1)]), unordered);
    let long = "a".repeat(MAX_SOURCE + 1);
    assert_eq!(text_kinds(&long, &[(0, 0)]), Err(Refusal::SourceTooLong));
    assert_eq!(text_kind_at(&long, 0, 0), Err(Refusal::SourceTooLong));
    assert_eq!(
        text_kinds(b"ab\xff", &[(0, 0)]),
        Err(Refusal::NotUtf8 { prefix: 2 })
    );
}

/// Yes and no, and the lines read.
#[test]
fn checks() {
    let lf = Options::new().line_ending(LineEnding::Lf);
    let crlf = Options::new().line_ending(LineEnding::Crlf);
    let never = lf.clone().final_newline(FinalNewline::Never);
    let source = lf.clone().final_newline(FinalNewline::AsSource);
    let narrow = lf.clone().width(Some(0));
    let cases = [
        ("a\nb\n", &lf, true, 3),
        ("a+b\nc\n", &narrow, false, 1),
        (" a\nb\nc\n", &lf, false, 2),
        (" a\n\n\nb\n", &lf, false, 4),
        ("a\n\n\nb\nc\n", &lf, false, 5),
        ("a\nb\n", &crlf, false, 2),
        ("a", &lf, false, 1),
        ("a\n\n", &lf, false, 3),
        ("", &source, true, 1),
        ("\n", &never, false, 2),
        ("a", &never, true, 1),
    ];
    let mut formatter = Formatter::new();
    for (text, options, formatted, lines) in cases {
        let check = formatter.check(text, options).expect("accepted");
        assert_eq!(
            (check.formatted, check.lines_read),
            (formatted, lines),
            "{text:?}"
        );
        assert_eq!(is_formatted(text, options), Ok(formatted), "{text:?}");
        assert_eq!(
            formatter.is_formatted(text, options),
            Ok(formatted),
            "{text:?}"
        );
    }
}

/// Options of a check are those of formatting: each answers for the texts of all, and no other one answers the same.
#[test]
fn checks_by_every_option() {
    let lf = Options::new().line_ending(LineEnding::Lf).width(Some(10));
    let never = Strengths::new()
        .with(Operator::Add, 0)
        .with(Operator::Multiply, 0);
    let each = [
        lf.clone(),
        lf.clone().indent("\t"),
        lf.clone().width(Some(30)),
        lf.clone().width(None).final_newline(FinalNewline::Never),
        lf.clone().line_ending(LineEnding::Crlf),
        lf.clone().indent("\t").ruler_tab(16),
        lf.clone().strengths(never),
    ];
    let source = "{\na+b*c\naaaaaa + b*c\naaaaaaaaaaaaaaaaaaaaaaaaaaaaaaaa + b*c\n";
    let texts = each.each_ref().map(|options| text(source, options));
    let answers = each.each_ref().map(|options| {
        texts.each_ref().map(|made| {
            let same = text(made, options) == *made;
            assert_eq!(
                is_formatted(made, options),
                Ok(same),
                "{made:?} {options:?}"
            );
            same
        })
    });
    for (i, row) in answers.iter().enumerate() {
        assert!(!answers[..i].contains(row), "{i} {answers:?}");
    }
}

/// The refusals of formatting but for the output's; and a line ending that is kept, in 2's place.
#[test]
fn checks_refused() {
    let lf = Options::new().line_ending(LineEnding::Lf);
    let long = "a".repeat(MAX_SOURCE + 1);
    let kept = Options::new().ruler_tab(17);
    let refused =
        |source: &[u8], options: &Options| is_formatted(source, options).expect_err("refused");
    assert_eq!(refused(b"a\xff", &lf), Refusal::NotUtf8 { prefix: 1 });
    assert_eq!(refused(b"a\xff", &Options::new()), Refusal::BadOption);
    assert_eq!(refused(b"a\xff", &kept), Refusal::BadOption);
    assert_eq!(
        refused(b"a\xff", &lf.clone().ruler_tab(17)),
        Refusal::RulerTooWide
    );
    assert_eq!(refused(long.as_bytes(), &kept), Refusal::SourceTooLong);
    let table = kept.strengths([0x11; 11]);
    assert_eq!(refused(long.as_bytes(), &table), Refusal::StrengthsBits);
    // a text too long for any output is only compared
    let deep = "(\n".repeat(100_000);
    assert_eq!(is_formatted(&deep, &lf), Ok(false));
}
