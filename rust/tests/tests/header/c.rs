//! As much of C as include/crpm.h uses: its macros, the values of its enum, the
//! fields of its structs, and expressions, as a compiler would take them.

use std::collections::{BTreeMap, BTreeSet};

pub struct Header {
    /// The text without comments.
    text: String,
    /// Macros and the values of the enum.
    macros: BTreeMap<String, Macro>,
}

struct Macro {
    parameters: Option<Vec<String>>,
    body: Vec<String>,
}

impl Header {
    pub fn read(text: &str) -> Result<Header, String> {
        let text = without_comments(text).replace("\\\n", " ");
        let mut macros = BTreeMap::new();
        let mut put = |name: &str, parameters, body: &str| match macros
            .insert(name.to_string(), Macro { parameters, body: tokens(body) })
        {
            None => Ok(()),
            Some(_) => Err(format!("{name} is defined twice")),
        };
        for line in text.lines() {
            let Some(rest) = line.trim().strip_prefix("#define ") else { continue };
            let end = rest.find(|c: char| !is_word(c)).unwrap_or(rest.len());
            let (name, rest) = rest.split_at(end);
            match rest.strip_prefix('(').and_then(|rest| rest.split_once(')')) {
                Some((names, body)) => {
                    put(name, Some(names.split(',').map(|p| p.trim().to_string()).collect()), body)?
                }
                None => put(name, None, rest)?,
            }
        }
        let values = between(&text, "enum crpm_status {", "}")?;
        for value in values.split(',').filter(|value| !value.trim().is_empty()) {
            let (name, number) = value.split_once('=').ok_or(format!("{value}: no number"))?;
            put(name.trim(), None, number)?;
        }
        Ok(Header { text, macros })
    }

    /// Every name that starts so, wherever it stands.
    pub fn names(&self, start: &str) -> Vec<String> {
        let names: BTreeSet<String> =
            tokens(&self.text).into_iter().filter(|token| token.starts_with(start)).collect();
        names.into_iter().collect()
    }

    /// The declarations of a struct's fields, in their order.
    pub fn fields(&self, name: &str) -> Result<Vec<String>, String> {
        let fields = between(&self.text, &format!("struct {name} {{"), "}")?.split(';');
        Ok(fields.map(|field| tokens(field).join(" ")).filter(|field| !field.is_empty()).collect())
    }

    /// The body of a macro as it stands.
    pub fn body(&self, name: &str) -> String {
        self.macros.get(name).map(|m| m.body.concat()).unwrap_or_default()
    }

    /// The macro called with sums for arguments, so that brackets left out
    /// are noticed.
    pub fn call(&self, name: &str, value: impl Fn(&str) -> Option<u64>) -> Result<String, String> {
        let parameters = self.macros.get(name).and_then(|m| m.parameters.as_ref());
        let parameters = parameters.ok_or(format!("{name}: no such macro"))?;
        let sums: Option<Vec<String>> = parameters.iter().map(|p| value(p).map(sum)).collect();
        let sums = sums.ok_or(format!("{name}: a parameter that is not known"))?;
        Ok(format!("{name}({})", sums.join(", ")))
    }

    /// The value of an expression of C.
    pub fn value(&self, expression: &str) -> Result<u64, String> {
        let expanded = self.expanded(&tokens(expression));
        let mut left = &expanded[..];
        let value = ternary(&mut left).filter(|_| left.is_empty());
        value.ok_or(format!("{expression}: no value"))
    }

    fn expanded(&self, tokens: &[String]) -> Vec<String> {
        let mut made = Vec::new();
        let mut at = 0;
        while let Some(token) = tokens.get(at) {
            at += 1;
            match self.macros.get(token) {
                None => made.push(token.clone()),
                Some(Macro { parameters: None, body }) => made.extend(self.expanded(body)),
                Some(Macro { parameters: Some(names), body }) => {
                    let (arguments, end) = arguments(tokens, at);
                    at = end;
                    let with = |token: &String| match names.iter().position(|name| name == token) {
                        Some(i) => self.expanded(arguments.get(i).map_or(&[], Vec::as_slice)),
                        None => vec![token.clone()],
                    };
                    let body: Vec<String> = body.iter().flat_map(with).collect();
                    made.extend(self.expanded(&body));
                }
            }
        }
        made
    }
}

/// A sum of two numbers, in the words of C.
fn sum(value: u64) -> String {
    format!("{} + {}", value / 2, value - value / 2)
}

pub fn is_word(c: char) -> bool {
    c.is_ascii_alphanumeric() || c == '_'
}

fn without_comments(text: &str) -> String {
    let mut parts = text.split("/*");
    let first = parts.next().unwrap_or_default().to_string();
    parts.fold(first, |all, part| all + " " + part.split_once("*/").map_or("", |(_, rest)| rest))
}

fn between<'a>(text: &'a str, start: &str, end: &str) -> Result<&'a str, String> {
    let inside = text.split_once(start).and_then(|(_, rest)| rest.split_once(end));
    inside.map(|(inside, _)| inside).ok_or(format!("{start} is missing"))
}

/// Words, strings and single signs.
fn tokens(text: &str) -> Vec<String> {
    let mut made = Vec::new();
    let mut rest = text.trim_start();
    while let Some(first) = rest.chars().next() {
        let end = match first {
            '"' => rest[1..].find('"').map(|end| end + 2),
            c if is_word(c) => rest.find(|c| !is_word(c)),
            _ => Some(1),
        };
        let (token, left) = rest.split_at(end.unwrap_or(rest.len()));
        made.push(token.to_string());
        rest = left.trim_start();
    }
    made
}

/// The arguments in the brackets that open at a token, and where they end.
fn arguments(tokens: &[String], at: usize) -> (Vec<Vec<String>>, usize) {
    let mut made = vec![Vec::new()];
    let mut depth = 0;
    for (i, token) in tokens.iter().enumerate().skip(at) {
        depth += i32::from(token == "(") - i32::from(token == ")");
        match (token.as_str(), depth) {
            ("(", 1) => {}
            (")", 0) => return (made, i + 1),
            (",", 1) => made.push(Vec::new()),
            _ => made.last_mut().expect("it has one").push(token.clone()),
        }
    }
    (made, tokens.len())
}

// The expressions that the header uses: a ? b : c, a > b, a < b, sums,
// products, casts to size_t, brackets, numbers.

fn next(tokens: &mut &[String], token: &str) -> bool {
    let found = tokens.first().is_some_and(|first| first == token);
    *tokens = &tokens[usize::from(found)..];
    found
}

fn ternary(tokens: &mut &[String]) -> Option<u64> {
    let condition = comparison(tokens)?;
    if !next(tokens, "?") {
        return Some(condition);
    }
    let first = ternary(tokens)?;
    let second = next(tokens, ":").then(|| ternary(tokens))??;
    Some(if condition != 0 { first } else { second })
}

fn comparison(tokens: &mut &[String]) -> Option<u64> {
    let left = additive(tokens)?;
    if next(tokens, ">") {
        return Some(u64::from(left > additive(tokens)?));
    }
    if next(tokens, "<") {
        return Some(u64::from(left < additive(tokens)?));
    }
    Some(left)
}

fn additive(tokens: &mut &[String]) -> Option<u64> {
    let mut value = product(tokens)?;
    while next(tokens, "+") {
        value = value.checked_add(product(tokens)?)?;
    }
    Some(value)
}

fn product(tokens: &mut &[String]) -> Option<u64> {
    let mut value = primary(tokens)?;
    while next(tokens, "*") {
        value = value.checked_mul(primary(tokens)?)?;
    }
    Some(value)
}

fn primary(tokens: &mut &[String]) -> Option<u64> {
    if !next(tokens, "(") {
        let (first, rest) = tokens.split_first()?;
        *tokens = rest;
        return first.parse().ok();
    }
    if next(tokens, "size_t") {
        return next(tokens, ")").then(|| primary(tokens))?;
    }
    let value = ternary(tokens)?;
    next(tokens, ")").then_some(value)
}
