//! Writes antt theorems: the definitions of `crates/rules` give the Rust's answers.
//!
//!     sample KIND SEED COUNT
//!
//! KIND is `format`, `grammar`, `kinds`, `call`, `kind-call`, `config`, `indent`, or an
//! alphabet's name and a length: `twelve:3` takes its sources from number SEED on, `twelve~3`
//! some of them; `kinds/twelve:3` their text kinds.

use runs::call::{Call, Chosen};
use runs::random::Random;
use runs::{grammar, model, sources};
use std::fmt::Write as _;
use upstream::{FormatOptions, LineEnding, TextKind};
use wirescript_format::raw::Resolved;

/// Cases to a theorem: a theorem has a limit of steps.
const CHUNK: usize = 25;
const LONG_CHUNK: usize = 4;

const HEAD: &str = r"use mathlib.Core.Path.{◌≡◌, refl}
use mathlib.Core.Bool.{Bool, true, false}
use Prim.Native.Nat.{ℕ}
use Prim.Native.String.{String}
use mathlib.Core.List.{List, [], ◌∷◌, map}
use Rattle.rules.specs.Basics.{codes}
use Rattle.rules.specs.Options.{Options, SettingStep, defaults, indent_with}
use Rattle.rules.specs.EditorConfig.{with_editor_config}
use Rattle.rules.specs.TextKind.{text_kind_at, kind_number}
use Rattle.rules.specs.Assembly.{Formatted, format_with}
use Rattle.rules.specs.Call.{Call, outcome_of, answer_of, output_of}
use Rattle.rules.specs.TextKind.{kind_outcome_of, kind_answer}
use Rattle.rules.specs.declared.Answer.{Answer}
use Rattle.rules.specs.declared.Kind.{Kind}
use Rattle.rules.specs.declared.LineEnding.{LineEnding}
use Rattle.rules.specs.declared.EndOfLine.{EndOfLine}
use Rattle.rules.specs.declared.PrintWidth.{PrintWidth}
use Rattle.rules.specs.declared.FinalNewline.{FinalNewline}
use Rattle.rules.specs.declared.IndentStyle.{IndentStyle}
use Rattle.rules.specs.declared.IndentSize.{IndentSize}
use Rattle.rules.specs.declared.TabWidth.{TabWidth}
use Rattle.rules.specs.declared.MaxLineLen.{MaxLineLen}
use Rattle.rules.specs.declared.ConfigEnding.{ConfigEnding}
use Rattle.rules.specs.declared.InsertFinalNewline.{InsertFinalNewline}
use Rattle.rules.specs.declared.Resolved.{Resolved}
use Rattle.rules.proofs.Computing.{computing}

abbrev opts : String → PrintWidth → EndOfLine → FinalNewline → Options
opts i w e n = record { indent = codes i; print_width = w; end_of_line = e; insert_final_newline = n; ruler_tab = 0; strengths = defaults.strengths }

";

fn width(width: Option<usize>) -> String {
    width.map_or("PrintWidth.Off".into(), |n| {
        format!("(PrintWidth.Columns {n})")
    })
}

fn ending(ending: Option<LineEnding>) -> &'static str {
    match ending {
        None => "EndOfLine.Kept",
        Some(LineEnding::Lf) => "(EndOfLine.Set LineEnding.Lf)",
        Some(LineEnding::Crlf) => "(EndOfLine.Set LineEnding.Crlf)",
    }
}

fn newline(o: &Chosen) -> &'static str {
    match (o.never, o.rust.insert_final_newline) {
        (true, _) => "FinalNewline.Never",
        (false, true) => "FinalNewline.Always",
        (false, false) => "FinalNewline.AsSource",
    }
}

fn options(o: &Chosen) -> String {
    format!(
        "opts {:?} {} {} {}",
        o.rust.indent,
        width(o.rust.print_width),
        ending(o.rust.end_of_line),
        newline(o)
    )
}

/// Options at random; a third of them with no ending after the last line.
fn chosen(random: &mut Random, rust: FormatOptions) -> Chosen {
    let chosen = Chosen::from(rust);
    if random.one_in(3) {
        chosen.never()
    } else {
        chosen
    }
}

fn format_case(source: &str, o: &Chosen) -> String {
    let counted = o.format(source);
    format!(
        "({}, {source:?}, {:?}, {}, {})",
        options(o),
        counted.text,
        counted.imports_split,
        counted.blank_names
    )
}

const FORMAT: &str = "abbrev Case : Type 0
Case = Options × String × String × ℕ × ℕ

abbrev Shown : Type 0
Shown = List ℕ × ℕ × ℕ

abbrev expected : Case → Shown
expected c = (codes c.2, c.3, c.4)

abbrev given : Case → Shown
given c = let r = format_with c.0 (codes c.1) in (r.text, r.imports_split, r.blank_names)
";

const KINDS: &str = "abbrev Case : Type 0
Case = String × ℕ × List ℕ × List ℕ

abbrev expected : Case → List ℕ
expected c = c.3

abbrev given : Case → List ℕ
given c = map (λ (k : ℕ). kind_number (text_kind_at (codes c.0) c.1 k)) c.2
";

const CONFIG: &str = "abbrev Case : Type 0
Case = Options × Resolved × Bool × Options

abbrev res : IndentStyle → IndentSize → TabWidth → MaxLineLen → ConfigEnding → InsertFinalNewline → Resolved
res a b c d e f = record { style = a; size = b; tab = c; max = d; ending = e; newline = f }

abbrev expected : Case → SettingStep
expected c = record { refused = c.2; options = c.3 }

abbrev given : Case → SettingStep
given c = with_editor_config c.0 c.1
";

const INDENT: &str = "abbrev Case : Type 0
Case = Options × Bool × ℕ × Bool × Options

abbrev expected : Case → SettingStep
expected c = record { refused = c.3; options = c.4 }

abbrev given : Case → SettingStep
given c = indent_with c.0 c.1 c.2
";

const CALL: &str = "abbrev Case : Type 0
Case = Call × Answer × List ℕ

abbrev call : List ℕ → List ℕ → ℕ → ℕ → ℕ → ℕ → ℕ → List ℕ → ℕ → ℕ → Call
call s i ws w e n r t o c =
    record { source = s; choices = record { indent = i; numbers = record { width_set = ws; width = w; line_ending = e; final_newline = n; ruler_tab = r }; strengths = t }; output = o; opened = 0; scratch = c }

abbrev ans : ℕ → ℕ → ℕ → ℕ → ℕ → ℕ → Answer
ans r p l i b k = record { refusal = r; place = p; length = l; imports_split = i; blank_names = b; open_brackets = k }

abbrev expected : Case → Answer × List ℕ
expected c = (c.1, c.2)

abbrev given : Case → Answer × List ℕ
given c = (answer_of (outcome_of c.0), output_of c.0)
";

const KIND_CALL: &str = "abbrev Case : Type 0
Case = List ℕ × ℕ × ℕ × ℕ × Kind

abbrev ans : ℕ → ℕ → ℕ → Kind
ans r p k = record { refusal = r; place = p; kind = k }

abbrev expected : Case → Kind
expected c = c.4

abbrev given : Case → Kind
given c = kind_answer (kind_outcome_of c.0 c.1 c.2 c.3)
";

fn call_case(random: &mut Random) -> String {
    let call = sources::call(random);
    let found = model::text_of(&call);
    let room = call.output.of(model::length(&found));
    let outcome = model::outcome(&found, room);
    let mut output = outcome.text;
    output.resize(room, 0);
    let a = outcome.answer;
    format!(
        "(call {} {} {} {} {} {} {} {} {} {}, ans {} {} {} {} {} {}, {})",
        list(&call.source),
        list(&call.indent),
        call.width_set,
        call.width,
        call.line_ending,
        call.final_newline,
        call.ruler_tab,
        list(&call.strengths),
        room,
        call.scratch_length(),
        a.refusal,
        a.place,
        a.length,
        a.imports_split,
        a.blank_names,
        a.open_brackets,
        list(output)
    )
}

fn kind_call_case(random: &mut Random) -> String {
    let call = sources::call(random);
    let (line, column) = (random.below(4) as u64, random.below(12) as u64);
    let kind = model::text_kind_at(&call.source, line, column, call.scratch_length());
    format!(
        "({}, {line}, {column}, {}, ans {} {} {})",
        list(&call.source),
        call.scratch_length(),
        kind.refusal,
        kind.place,
        kind.kind
    )
}

fn list<T: std::fmt::Display>(items: impl IntoIterator<Item = T>) -> String {
    let mut text = String::from("(");
    for item in items {
        let _ = write!(text, "{item} ∷ ");
    }
    text + "[])"
}

/// The kinds of a source, a case for each line and for one past the last.
fn kind_cases(source: &str, cases: &mut Vec<String>) {
    let lines = source.split('\n').count();
    for line in 0..=lines {
        let columns = source
            .split('\n')
            .nth(line)
            .map_or(1, |l| l.chars().count() + 2);
        let kinds = (0..columns).map(|c| match upstream::text_kind_at(source, line, c) {
            TextKind::Code => 0,
            TextKind::Str => 1,
            TextKind::Comment => 2,
        });
        cases.push(format!(
            "({source:?}, {line}, {}, {})",
            list(0..columns),
            list(kinds)
        ));
    }
}

fn size(random: &mut Random) -> u64 {
    [0, 1, 2, 3, 4, 5, 8, 63, 64, 65, 100][random.below(11)]
}

fn config_case(random: &mut Random) -> String {
    let mut o = sources::options(random);
    o.indent = random
        .pick(&["", " ", "  ", "\t", "\t\t", "\t ", " \t", "     "])
        .into();
    let o = chosen(random, o);
    let r = Resolved {
        style: random.below(3) as u64,
        size_kind: random.below(3) as u64,
        size: size(random),
        tab_set: random.below(2) as u64,
        tab: size(random),
        max_kind: random.below(3) as u64,
        max: size(random),
        ending: random.below(4) as u64,
        newline: random.below(3) as u64,
    };
    let found = model::editorconfig(&Call::chosen("", &o), r);
    let refused = found.is_none();
    let style = ["Unset", "Tabs", "Spaces"][r.style as usize];
    let size = match r.size_kind {
        0 => "IndentSize.Unset".into(),
        1 => "IndentSize.UseTabWidth".into(),
        _ => format!("(IndentSize.Value {})", r.size),
    };
    let tab = match r.tab_set {
        0 => "TabWidth.Unset".into(),
        _ => format!("(TabWidth.Value {})", r.tab),
    };
    let max = match r.max_kind {
        0 => "MaxLineLen.Unset".into(),
        1 => "MaxLineLen.Off".into(),
        _ => format!("(MaxLineLen.Value {})", r.max),
    };
    let ending = ["Unset", "Lf", "CrLf", "Cr"][r.ending as usize];
    let newline = ["Unset", "Value false", "Value true"][r.newline as usize];
    format!(
        "({}, res IndentStyle.{style} {size} {tab} {max} ConfigEnding.{ending} (InsertFinalNewline.{newline}), {refused}, {})",
        options(&o),
        options(&found.unwrap_or(o.clone()))
    )
}

fn indent_case(random: &mut Random) -> String {
    let o = sources::options(random);
    let o = chosen(random, o);
    let (tabs, size) = (random.one_in(2), size(random));
    let found = model::indent_with(&Call::chosen("", &o), u64::from(tabs), size);
    let refused = found.is_none();
    let after = options(&found.unwrap_or(o.clone()));
    format!("({}, {tabs}, {size}, {refused}, {after})", options(&o))
}

/// Sources over an alphabet, with their numbers: `NAME:LENGTH` from `first` on, `NAME~LENGTH`
/// scattered.
fn numbered(word: &str, first: u64, count: usize) -> Vec<(u64, String)> {
    let (name, length) = word
        .split_once([':', '~'])
        .expect("an alphabet and a length");
    let length: u32 = length.parse().expect("a length");
    let scattered = word.contains('~');
    let (_, alphabet) = sources::ALPHABETS
        .iter()
        .find(|a| a.0 == name)
        .expect("an alphabet");
    let all = sources::count(alphabet, length);
    let number = |n: u64| {
        if scattered {
            Random::new(n).number() % all
        } else {
            n
        }
    };
    (first..all)
        .take(count)
        .map(|n| (number(n), sources::nth(alphabet, length, number(n))))
        .collect()
}

type Make = fn(&mut Random) -> String;

/// Kinds whose cases are made one by one: the name, how one is made, and the types.
#[rustfmt::skip]
const SINGLE: [(&str, Make, &str); 4] = [
    ("call", call_case, CALL),
    ("kind-call", kind_call_case, KIND_CALL),
    ("config", config_case, CONFIG),
    ("indent", indent_case, INDENT),
];

fn main() {
    let arguments: Vec<String> = std::env::args().skip(1).collect();
    let [kind, seed, count] = arguments.as_slice() else {
        eprintln!("sample KIND SEED COUNT");
        std::process::exit(2);
    };
    let seed: u64 = seed.parse().expect("SEED is a number");
    let count: usize = count.parse().expect("COUNT is a number");
    let mut random = Random::new(seed);
    let mut cases = Vec::new();
    let types = match kind.as_str() {
        "format" => {
            for _ in 0..count {
                let source = sources::short(&mut random);
                let o = sources::options(&mut random);
                cases.push(format_case(&source, &chosen(&mut random, o)));
            }
            FORMAT
        }
        "grammar" => {
            for _ in 0..count {
                let source = grammar::source(&mut random, 20, 5);
                let source = grammar::mutate(&mut random, &source);
                let mut o = sources::options(&mut random);
                if random.one_in(2) {
                    o.print_width = Some(10 + random.below(50));
                }
                cases.push(format_case(&source, &chosen(&mut random, o)));
            }
            FORMAT
        }
        "kinds" => {
            while cases.len() < count {
                let source = if random.one_in(3) {
                    sources::tokens(&mut random, 8)
                } else {
                    sources::short(&mut random)
                };
                kind_cases(&source, &mut cases);
            }
            KINDS
        }
        other => {
            if let Some((_, make, types)) = SINGLE.iter().find(|single| single.0 == other) {
                cases.extend((0..count).map(|_| make(&mut random)));
                types
            } else if let Some(lettered) = other.strip_prefix("kinds/") {
                for (_, source) in numbered(lettered, seed, count) {
                    kind_cases(&source, &mut cases);
                }
                KINDS
            } else {
                for (number, source) in numbered(other, seed, count) {
                    let mut random = Random::new(number);
                    let o = FormatOptions {
                        print_width: Some(random.below(7)),
                        ..sources::options(&mut random)
                    };
                    cases.push(format_case(&source, &chosen(&mut random, o)));
                }
                FORMAT
            }
        }
    };
    println!("{HEAD}{types}");
    let chunk = if kind == "grammar" { LONG_CHUNK } else { CHUNK };
    for (i, some) in cases.chunks(chunk).enumerate() {
        println!("abbrev cases{i} : List Case\ncases{i} =");
        for case in some {
            println!("    {case}\n    ∷");
        }
        println!("    []\n\nsample{i} : map given cases{i} ≡ map expected cases{i}");
        println!("unfolding computing\nsample{i} = refl\n");
    }
}
