//! Texts to measure on: a mebibyte of each kind, the same at every run.

pub const MEBIBYTE: usize = 1 << 20;

struct Random(u64);

impl Random {
    fn below(&mut self, n: usize) -> usize {
        self.0 ^= self.0 << 13;
        self.0 ^= self.0 >> 7;
        self.0 ^= self.0 << 17;
        (self.0 >> 11) as usize % n
    }

    fn pick<'a>(&mut self, of: &[&'a str]) -> &'a str {
        of[self.below(of.len())]
    }
}

const NAMES: [&str; 16] = [
    "player",
    "score",
    "next",
    "team",
    "spawnPoint",
    "isAlive",
    "roundTimer",
    "door",
    "index",
    "total",
    "lobby",
    "character",
    "controller",
    "gateOpen",
    "count",
    "message",
];
const PLAIN: [&str; 14] = [
    "in @: int",
    "out @: float",
    "var @ = 0",
    "let @ = @ + @ * 2 - @(@, @)",
    "if @ == @ && @ > 10 {",
    "} else if @ {",
    "}",
    "@.set(@, { x: @.x, y: @.y, z: 0.5 })",
    "for @ in @..@ {",
    "@(@, @, [@, @, 3])",
    "",
    "emit @ -> @",
    "let ratio = @ / @ + @ % 60",
    "await @.ready",
];
const QUOTED: [&str; 6] = [
    "@.say(\"The round is over: @ wins\")",
    "let text = \"${@} of ${@ + 1} points for ${if @ then \"red\" else \"blue\"}\"",
    "log('it\\'s time', \"a \\\"quoted\\\" word\", @)",
    "@[\"@\"] = \"Willkommen, ${@.name} – schön, dass du da bist\"",
    "import { @, @, @ } from \"lib/@.ws\"",
    "emit \"@\", @, \"@\"",
];
const COMMENTS: [&str; 5] = [
    "// @ and @ are set before the round starts, see @",
    "/// The @ of a @, in seconds.",
    "let @ = @ // keep in step with @",
    "/* @ is not used any more; @ took its place */",
    "/*\n * @ holds what @ had when it left,\n * so that @ can go on.\n */",
];

fn fill(template: &str, random: &mut Random, out: &mut String) {
    for c in template.chars() {
        if c == '@' {
            out.push_str(random.pick(&NAMES));
        } else {
            out.push(c);
        }
    }
}

/// Lines of templates, indented, to a mebibyte. Of a hundred lines `quoted` have strings and `comments` a comment.
fn text(quoted: usize, comments: usize) -> String {
    let mut random = Random(0x9e37_79b9_7f4a_7c15);
    let mut out = String::new();
    while out.len() < MEBIBYTE {
        let kind = random.below(100);
        let template = if kind < quoted {
            random.pick(&QUOTED)
        } else if kind < quoted + comments {
            random.pick(&COMMENTS)
        } else {
            random.pick(&PLAIN)
        };
        for _ in 0..random.below(5) {
            out.push_str("  ");
        }
        fill(template, &mut random, &mut out);
        out.push('\n');
    }
    out
}

/// Short lines of the characters that mean something to the scan, in any order.
fn random() -> String {
    const CHARS: [&str; 14] = [
        "\\",
        "\"",
        "'",
        "$",
        "{",
        "}",
        "/",
        "*",
        "`",
        "```",
        "a",
        " ",
        "é",
        "\u{1F600}",
    ];
    let mut random = Random(0x2545_f491_4f6c_dd1d);
    let mut out = String::new();
    while out.len() < MEBIBYTE {
        for _ in 0..random.below(24) {
            out.push_str(random.pick(&CHARS));
        }
        out.push('\n');
    }
    out
}

fn repeated(line: &str) -> String {
    let mut out = String::new();
    while out.len() < MEBIBYTE {
        out.push_str(line);
    }
    out
}

pub fn texts() -> Vec<(&'static str, String)> {
    vec![
        ("realistic", text(15, 15)),
        ("code", text(0, 0)),
        ("strings", text(100, 0)),
        ("comments", text(0, 100)),
        (
            "line comments",
            repeated("    // what stands here is a comment, to the end of the line\n"),
        ),
        (
            "block comment",
            format!(
                "/*{}",
                repeated(" * what stands here is a comment on many lines / and so on\n")
            ),
        ),
        (
            "one string",
            repeated("    \"what stands here is a string, from its first quote to its last\"\n"),
        ),
        (
            "interpolation",
            repeated("  \"${a}${b + {c: {d: 1}}} ${f(\"x\", 'y')}\"\n"),
        ),
        (
            "prefab",
            format!(
                "$```{}",
                repeated("{ \"what\": `stands`, \"here\": [is, a, prefab] }\n")
            ),
        ),
        (
            "quotes",
            repeated("\"'\"'\"'\"'\"'\"'\"'\"'\"'\"'\"'\"'\"'\"'\"'\"'\"'\"'\"'\"'\n"),
        ),
        (
            "slashes",
            repeated("/ / / * / * / $ $ / * / / * / $ / / * / / * / $\n"),
        ),
        ("random", random()),
        ("one line", repeated("@ + b(c, \"d\") * /* e */ ")),
        ("empty lines", repeated("\n")),
    ]
}
