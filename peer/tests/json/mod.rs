//! As much of JSON as the conformance vectors have: objects, lists, numbers and texts.

/// A value. An object's members keep their order, which doesn't matter where two are compared.
#[derive(Clone, Debug)]
pub enum Value {
    Number(u64),
    Text(String),
    List(Vec<Value>),
    Object(Vec<(String, Value)>),
}

impl PartialEq for Value {
    fn eq(&self, other: &Value) -> bool {
        match (self, other) {
            (Value::Number(a), Value::Number(b)) => a == b,
            (Value::Text(a), Value::Text(b)) => a == b,
            (Value::List(a), Value::List(b)) => a == b,
            (Value::Object(a), Value::Object(b)) => {
                a.len() == b.len() && a.iter().all(|(name, value)| other.member(name) == Some(value))
            }
            _ => false,
        }
    }
}

impl Value {
    /// The value of a text that is nothing else.
    pub fn of(text: &str) -> Value {
        let mut rest = text.trim();
        let value = value(&mut rest);
        assert!(rest.is_empty(), "no more is wanted at `{rest}`");
        value
    }

    pub fn object<const N: usize>(members: [(&str, Value); N]) -> Value {
        Value::Object(members.map(|(name, value)| (name.to_string(), value)).to_vec())
    }

    fn member(&self, name: &str) -> Option<&Value> {
        let Value::Object(members) = self else { panic!("no object: {self:?}") };
        members.iter().find(|(other, _)| other == name).map(|(_, value)| value)
    }

    pub fn at(&self, name: &str) -> &Value {
        self.member(name).unwrap_or_else(|| panic!("no {name} in {self:?}"))
    }

    pub fn number<N: TryFrom<u64>>(&self, name: &str) -> N {
        let Value::Number(number) = *self.at(name) else { panic!("{name} is no number") };
        number.try_into().unwrap_or_else(|_| panic!("{name} is too large"))
    }

    pub fn text(&self, name: &str) -> &str {
        let Value::Text(text) = self.at(name) else { panic!("{name} is no text") };
        text
    }

    pub fn list(&self, name: &str) -> &[Value] {
        let Value::List(list) = self.at(name) else { panic!("{name} is no list") };
        list
    }

    /// The bytes that a text of hexadecimal digits stands for.
    pub fn bytes(&self) -> Vec<u8> {
        let Value::Text(text) = self else { panic!("no text: {self:?}") };
        let digits = text.as_bytes().chunks(2).map(|two| std::str::from_utf8(two).expect("digits"));
        digits.map(|two| u8::from_str_radix(two, 16).expect("two digits")).collect()
    }

    pub fn hex(bytes: &[u8]) -> Value {
        Value::Text(bytes.iter().map(|byte| format!("{byte:02x}")).collect())
    }
}

/// Takes a value off the text.
fn value(rest: &mut &str) -> Value {
    match rest.chars().next().expect("a value") {
        '{' => Value::Object(items(rest, '}', |rest| {
            let name = text(rest);
            assert!(take(rest, ':'), "a colon is wanted at `{rest}`");
            (name, value(rest))
        })),
        '[' => Value::List(items(rest, ']', value)),
        '"' => Value::Text(text(rest)),
        _ => Value::Number(number(rest)),
    }
}

/// Takes this character off, if it is the next, with the blanks around it.
fn take(rest: &mut &str, wanted: char) -> bool {
    let after = rest.trim_start().strip_prefix(wanted);
    *rest = after.unwrap_or(rest).trim_start();
    after.is_some()
}

/// Takes items off, with the brackets around them and the commas between.
fn items<T>(rest: &mut &str, end: char, item: impl Fn(&mut &str) -> T) -> Vec<T> {
    let mut items = Vec::new();
    *rest = rest[1..].trim_start();
    while !take(rest, end) {
        assert!(items.is_empty() || take(rest, ','), "a comma is wanted at `{rest}`");
        items.push(item(rest));
    }
    items
}

/// Takes a text off. Of the escapes only the newline is known.
fn text(rest: &mut &str) -> String {
    let inner = rest.strip_prefix('"').expect("a text");
    let (text, after) = inner.split_once('"').expect("the text's end");
    *rest = after;
    let plain = text.replace("\\n", "\n");
    assert!(!plain.contains('\\'), "an escape that isn't known: {text}");
    plain
}

fn number(rest: &mut &str) -> u64 {
    let end = rest.find(|digit: char| !digit.is_ascii_digit()).unwrap_or(rest.len());
    let (digits, after) = rest.split_at(end);
    *rest = after;
    digits.parse().expect("a number")
}
