//! What a line says.

/// What stands after the word of a line.
#[derive(Default)]
pub struct Given {
    pub data: Vec<i64>,
    pub numbers: Vec<u32>,
    pub lists: Vec<Vec<u32>>,
}

/// Returns the word of a line and what stands after it, or None if the line is bad.
pub fn read(line: &[u8]) -> Option<(&str, Given)> {
    if line.len() > 4096 {
        return None;
    }
    let mut items = std::str::from_utf8(line).ok()?.split(' ').peekable();
    let word = items.next()?;
    let mut given = Given::default();
    for kind in takes(word)?.chars() {
        match kind {
            'D' => given.data.push(datum(items.next()?)?),
            'N' => given.numbers.push(number(items.next()?)?),
            _ => {
                if !given.lists.is_empty() && items.next()? != "/" {
                    return None;
                }
                let mut list = Vec::new();
                while let Some(number) = items.peek().copied().and_then(number) {
                    list.push(number);
                    items.next();
                }
                given.lists.push(list);
            }
        }
    }
    items.next().is_none().then_some((word, given))
}

/// What stands after a word: D a datum, N a number, L a list.
fn takes(word: &str) -> Option<&'static str> {
    Some(match word {
        "clear" | "counts" | "words" | "hull" | "check" => "",
        "append" => "D",
        "triangle" => "DDD",
        "put" => "ND",
        "close" | "flip" | "remove" | "degenerate" | "out" | "origin" | "get" => "N",
        "setup" | "extend" | "line" | "outside" | "insert" | "half" | "split" | "swap"
        | "between" => "NN",
        "legalize" | "isolate" => "NL",
        "strip" => "L",
        "cleanup" => "LL",
        "remesh" => "LLL",
        _ => return None,
    })
}

/// Reads a number without a leading zero.
fn number(item: &str) -> Option<u32> {
    let is_plain =
        item.bytes().all(|byte| byte.is_ascii_digit()) && (item == "0" || !item.starts_with('0'));
    item.parse().ok().filter(|_| is_plain)
}

/// Reads a number that may have a minus sign, if it isn't 0.
fn datum(item: &str) -> Option<i64> {
    let digits = item.strip_prefix('-').unwrap_or(item);
    let is_plain = digits.bytes().all(|byte| byte.is_ascii_digit())
        && (item == "0" || !digits.starts_with('0'));
    item.parse().ok().filter(|_| is_plain)
}
