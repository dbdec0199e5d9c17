// A plain program in Rust that does what `roqsulei run` does of a service with one operation: it reads JSON-RPC lines, runs a
// body of assignments over a store that is a tree, and writes the answers. It proves nothing and keeps no record.
use std::collections::BTreeMap;
use std::io::{self, BufRead, Write};

#[derive(Clone, Debug)]
enum Json {
    Null,
    Int(i64),
    Text(String),
    List(Vec<Json>),
    Object(BTreeMap<String, Json>),
}

struct Reader<'a> {
    bytes: &'a [u8],
    at: usize,
}

impl Reader<'_> {
    fn blanks(&mut self) {
        while self.bytes.get(self.at).is_some_and(|b| b.is_ascii_whitespace()) {
            self.at += 1;
        }
    }

    fn take(&mut self, byte: u8) -> Option<()> {
        self.blanks();
        (self.bytes.get(self.at) == Some(&byte)).then(|| self.at += 1)
    }

    fn text(&mut self) -> Option<String> {
        self.take(b'"')?;
        let start = self.at;
        while *self.bytes.get(self.at)? != b'"' {
            self.at += 1;
        }
        self.at += 1;
        String::from_utf8(self.bytes[start..self.at - 1].to_vec()).ok()
    }

    fn value(&mut self) -> Option<Json> {
        self.blanks();
        match self.bytes.get(self.at)? {
            b'"' => self.text().map(Json::Text),
            b'{' => {
                self.at += 1;
                let mut members = BTreeMap::new();
                if self.take(b'}').is_some() {
                    return Some(Json::Object(members));
                }
                loop {
                    let name = self.text()?;
                    self.take(b':')?;
                    members.insert(name, self.value()?);
                    if self.take(b',').is_none() {
                        self.take(b'}')?;
                        return Some(Json::Object(members));
                    }
                    self.blanks();
                }
            }
            b'[' => {
                self.at += 1;
                let mut items = Vec::new();
                if self.take(b']').is_some() {
                    return Some(Json::List(items));
                }
                loop {
                    items.push(self.value()?);
                    if self.take(b',').is_none() {
                        self.take(b']')?;
                        return Some(Json::List(items));
                    }
                }
            }
            b'n' => {
                self.at += 4;
                Some(Json::Null)
            }
            _ => {
                let start = self.at;
                while self.bytes.get(self.at).is_some_and(|b| b.is_ascii_digit() || *b == b'-') {
                    self.at += 1;
                }
                std::str::from_utf8(&self.bytes[start..self.at]).ok()?.parse().ok().map(Json::Int)
            }
        }
    }
}

fn written(value: &Json, out: &mut String) {
    match value {
        Json::Null => out.push_str("null"),
        Json::Int(n) => out.push_str(&n.to_string()),
        Json::Text(s) => {
            out.push('"');
            out.push_str(s);
            out.push('"');
        }
        Json::List(items) => {
            out.push('[');
            for (i, item) in items.iter().enumerate() {
                if i > 0 {
                    out.push(',');
                }
                written(item, out);
            }
            out.push(']');
        }
        Json::Object(members) => {
            out.push('{');
            for (i, (name, member)) in members.iter().enumerate() {
                if i > 0 {
                    out.push(',');
                }
                written(&Json::Text(name.clone()), out);
                out.push(':');
                written(member, out);
            }
            out.push('}');
        }
    }
}

#[derive(Clone, Default)]
struct Tree {
    root: i32,
    children: BTreeMap<String, Vec<Tree>>,
}

enum Expression {
    Literal(i32),
    Path(Vec<String>),
    Sum(Box<Expression>, Box<Expression>),
}

struct Assign {
    path: Vec<String>,
    value: Expression,
}

fn found<'a>(mut tree: &'a Tree, path: &[String]) -> Option<&'a Tree> {
    for step in path {
        tree = tree.children.get(step)?.first()?;
    }
    Some(tree)
}

fn eval(store: &Tree, e: &Expression) -> Option<i32> {
    match e {
        Expression::Literal(n) => Some(*n),
        Expression::Path(path) => found(store, path).map(|t| t.root),
        Expression::Sum(a, b) => eval(store, a)?.checked_add(eval(store, b)?),
    }
}

fn assign(mut tree: &mut Tree, path: &[String], root: i32) {
    for step in path {
        let vector = tree.children.entry(step.clone()).or_default();
        if vector.is_empty() {
            vector.push(Tree::default());
        }
        tree = &mut vector[0];
    }
    tree.root = root;
}

fn call(body: &[Assign], n: i32) -> Option<i32> {
    let mut store = Tree::default();
    assign(&mut store, &["x".into(), "n".into()], n);
    for statement in body {
        let value = eval(&store, &statement.value)?;
        assign(&mut store, &statement.path, value);
    }
    found(&store, &["y".into()]).map(|t| t.root)
}

fn main() {
    let many: usize = std::env::args().nth(1).and_then(|n| n.parse().ok()).unwrap_or(1);
    let y = || vec!["y".to_string()];
    let input = || Expression::Path(vec!["x".into(), "n".into()]);
    let mut body = vec![Assign { path: y(), value: Expression::Sum(Box::new(input()), Box::new(input())) }];
    for _ in 1..many {
        body.push(Assign { path: y(), value: Expression::Sum(Box::new(Expression::Path(y())), Box::new(Expression::Literal(1))) });
    }
    let mut output = io::stdout().lock();
    for line in io::stdin().lock().lines() {
        let line = line.unwrap();
        let mut reader = Reader { bytes: line.as_bytes(), at: 0 };
        let Some(Json::Object(members)) = reader.value() else { continue };
        let id = members.get("id").cloned().unwrap_or(Json::Null);
        let n = match (members.get("method"), members.get("params")) {
            (Some(Json::Text(method)), Some(Json::Object(params))) if method == "twice" => match params.get("n") {
                Some(Json::Int(n)) => i32::try_from(*n).ok(),
                _ => None,
            },
            _ => None,
        };
        let mut answer = BTreeMap::from([("id".to_string(), id), ("jsonrpc".to_string(), Json::Text("2.0".into()))]);
        answer.insert("result".into(), n.and_then(|n| call(&body, n)).map_or(Json::Null, |n| Json::Int(n.into())));
        let mut text = String::new();
        written(&Json::Object(answer), &mut text);
        text.push('\n');
        output.write_all(text.as_bytes()).unwrap();
        output.flush().unwrap();
    }
}
