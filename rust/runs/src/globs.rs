//! Which paths a section's name matches, from the page on `EditorConfig` and not from our code: a syntax tree, and
//! the sets of places that a match may end at.

use std::collections::BTreeSet;

#[derive(Debug, Clone)]
enum Node {
    Char(char),
    One,
    Star,
    Stars,
    Deep,
    Set(bool, Vec<(char, char)>),
    Range(String, String),
    Braces(Vec<Vec<Node>>),
}

/// The place of the `]` that ends the set opened before `from`.
fn set_end(s: &[char], from: usize) -> Option<usize> {
    let mut i = from;
    while i < s.len() {
        match s[i] {
            '\\' => i += 2,
            ']' => return Some(i),
            _ => i += 1,
        }
    }
    None
}

fn set_of(s: &[char]) -> Node {
    let (negated, s) = if s.first() == Some(&'!') {
        (true, &s[1..])
    } else {
        (false, s)
    };
    // characters, each with whether it was escaped
    let mut cs = Vec::new();
    let mut i = 0;
    while i < s.len() {
        if s[i] == '\\' && i + 1 < s.len() {
            cs.push((s[i + 1], true));
            i += 2;
        } else {
            cs.push((s[i], false));
            i += 1;
        }
    }
    let mut ranges = Vec::new();
    let mut i = 0;
    while i < cs.len() {
        if i + 2 < cs.len() && cs[i + 1] == ('-', false) {
            ranges.push((cs[i].0, cs[i + 2].0));
            i += 3;
        } else {
            ranges.push((cs[i].0, cs[i].0));
            i += 1;
        }
    }
    Node::Set(negated, ranges)
}

fn number_at(s: &[char], from: usize) -> usize {
    let start = if s.get(from) == Some(&'-') {
        from + 1
    } else {
        from
    };
    let mut end = start;
    while end < s.len() && s[end].is_ascii_digit() {
        end += 1;
    }
    if end == start { 0 } else { end - from }
}

fn range_at(s: &[char], i: usize) -> Option<(Node, usize)> {
    let m = number_at(s, i + 1);
    let dots = i + 1 + m;
    if m == 0 || s.get(dots) != Some(&'.') || s.get(dots + 1) != Some(&'.') {
        return None;
    }
    let n = number_at(s, dots + 2);
    if n == 0 || s.get(dots + 2 + n) != Some(&'}') {
        return None;
    }
    let text = |a: usize, b: usize| s[a..b].iter().collect::<String>();
    Some((
        Node::Range(text(i + 1, dots), text(dots + 2, dots + 2 + n)),
        dots + 3 + n,
    ))
}

/// The marks of a name, in the order of the text: a node, or a brace or comma outside brackets.
enum Mark {
    Is(Node),
    Open,
    Comma,
    Close,
}

fn marks(s: &[char]) -> (Vec<Mark>, bool) {
    let mut out = Vec::new();
    let mut slash = false;
    let mut i = 0;
    while i < s.len() {
        let rest: String = s[i..].iter().take(4).collect();
        if rest == "/**/" {
            out.push(Mark::Is(Node::Deep));
            slash = true;
            i += 4;
            continue;
        }
        match s[i] {
            '\\' if i + 1 < s.len() => {
                slash |= s[i + 1] == '/';
                out.push(Mark::Is(Node::Char(s[i + 1])));
                i += 1;
            }
            '[' => match set_end(s, i + 1) {
                Some(e) => {
                    out.push(Mark::Is(set_of(&s[i + 1..e])));
                    i = e;
                }
                None => out.push(Mark::Is(Node::Char('['))),
            },
            '{' => match range_at(s, i) {
                Some((node, end)) => {
                    out.push(Mark::Is(node));
                    i = end - 1;
                }
                None => out.push(Mark::Open),
            },
            ',' => out.push(Mark::Comma),
            '}' => out.push(Mark::Close),
            '*' if s.get(i + 1) == Some(&'*') => {
                out.push(Mark::Is(Node::Stars));
                i += 1;
            }
            '*' => out.push(Mark::Is(Node::Star)),
            '?' => out.push(Mark::Is(Node::One)),
            c => {
                slash |= c == '/';
                out.push(Mark::Is(Node::Char(c)));
            }
        }
        i += 1;
    }
    (out, slash)
}

/// The marks as a tree: an unescaped `}` closes the innermost open brace; a brace never closed, and braces without a comma of their own, are themselves.
fn tree(marks: Vec<Mark>) -> Vec<Node> {
    // each open brace: the alternatives so far
    let mut stack: Vec<Vec<Vec<Node>>> = vec![vec![Vec::new()]];
    for mark in marks {
        let depth = stack.len();
        let top = stack.last_mut().expect("never empty");
        match mark {
            Mark::Is(node) => top.last_mut().expect("never empty").push(node),
            Mark::Open => stack.push(vec![Vec::new()]),
            Mark::Comma if depth == 1 => top[0].push(Node::Char(',')),
            Mark::Comma => top.push(Vec::new()),
            Mark::Close if depth == 1 => top[0].push(Node::Char('}')),
            Mark::Close => {
                let mut alternatives = stack.pop().expect("checked");
                let into = stack
                    .last_mut()
                    .expect("never empty")
                    .last_mut()
                    .expect("never empty");
                if alternatives.len() == 1 {
                    into.push(Node::Char('{'));
                    into.append(&mut alternatives[0]);
                    into.push(Node::Char('}'));
                } else {
                    into.push(Node::Braces(alternatives));
                }
            }
        }
    }
    while stack.len() > 1 {
        let alternatives = stack.pop().expect("checked");
        let into = stack
            .last_mut()
            .expect("never empty")
            .last_mut()
            .expect("never empty");
        into.push(Node::Char('{'));
        for (i, mut part) in alternatives.into_iter().enumerate() {
            if i > 0 {
                into.push(Node::Char(','));
            }
            into.append(&mut part);
        }
    }
    stack
        .pop()
        .expect("one is left")
        .pop()
        .expect("one alternative")
}

/// Where a match of the nodes that starts at `at` may end.
fn ends(nodes: &[Node], path: &[char], at: usize) -> BTreeSet<usize> {
    let mut places = BTreeSet::from([at]);
    for node in nodes {
        places = places
            .into_iter()
            .flat_map(|p| node_ends(node, path, p))
            .collect();
    }
    places
}

fn value(text: &str) -> i128 {
    text.parse().expect("a number")
}

fn node_ends(node: &Node, path: &[char], p: usize) -> Vec<usize> {
    let one = |ok: bool| if ok { vec![p + 1] } else { Vec::new() };
    match node {
        Node::Char(c) => one(path.get(p) == Some(c)),
        Node::One => one(path.get(p).is_some_and(|&c| c != '/')),
        Node::Star => {
            let stop = (p..path.len())
                .find(|&i| path[i] == '/')
                .unwrap_or(path.len());
            (p..=stop).collect()
        }
        Node::Stars => (p..=path.len()).collect(),
        Node::Deep => {
            if path.get(p) != Some(&'/') {
                return Vec::new();
            }
            // `/`, or `/`, any string, `/`
            (p..path.len())
                .filter(|&i| path[i] == '/')
                .map(|i| i + 1)
                .collect()
        }
        Node::Set(negated, ranges) => one(path
            .get(p)
            .is_some_and(|&c| ranges.iter().any(|&(a, b)| a <= c && c <= b) != *negated)),
        Node::Range(m, n) => {
            let (low, high) = (value(m).min(value(n)), value(m).max(value(n)));
            let digits = if path.get(p) == Some(&'-') { p + 1 } else { p };
            let mut out = Vec::new();
            let mut e = digits;
            while e < path.len() && path[e].is_ascii_digit() {
                e += 1;
                let text: String = path[p..e].iter().collect();
                if (low..=high).contains(&value(&text)) {
                    out.push(e);
                }
            }
            out
        }
        Node::Braces(alternatives) => {
            let all: BTreeSet<usize> = alternatives.iter().flat_map(|a| ends(a, path, p)).collect();
            all.into_iter().collect()
        }
    }
}

/// Whether a name matches a path relative to the directory of its text.
#[must_use]
pub fn matches(name: &str, path: &str) -> bool {
    let name: Vec<char> = name.chars().collect();
    let path: Vec<char> = path.chars().collect();
    let (_, slash) = marks(&name);
    let dropped = if name.first() == Some(&'/') {
        &name[1..]
    } else {
        &name[..]
    };
    let starts: String = dropped.iter().take(3).collect();
    if starts == "**/" {
        // read as if a `/` stood before it
        let with: Vec<char> = std::iter::once('/')
            .chain(dropped.iter().copied())
            .collect();
        let path: Vec<char> = std::iter::once('/').chain(path.iter().copied()).collect();
        return ends(&tree(marks(&with).0), &path, 0).contains(&path.len());
    }
    let nodes = tree(marks(dropped).0);
    if slash {
        return ends(&nodes, &path, 0).contains(&path.len());
    }
    let levels =
        std::iter::once(0).chain((0..path.len()).filter(|&i| path[i] == '/').map(|i| i + 1));
    levels
        .into_iter()
        .any(|at| ends(&nodes, &path, at).contains(&path.len()))
}
