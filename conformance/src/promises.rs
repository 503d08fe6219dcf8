//! What the library's public functions promise, read off their sources: an entry point has no condition, every public function promises something, and says
//! what every buffer that it was lent for writing holds at the end. Crates that crates.txt names as inside may have conditions.

/// The crates that the comment line `# inside: ..` of crates.txt names.
pub fn inside(list: &str) -> Vec<&str> {
    let named = list
        .lines()
        .filter_map(|line| line.strip_prefix("# inside:"));
    named.flat_map(str::split_whitespace).collect()
}

/// The crates that crates.txt lists.
pub fn listed(list: &str) -> Vec<&str> {
    seen(list).into_iter().map(|(name, _)| name).collect()
}

/// The same with what each of them sees.
pub fn seen(list: &str) -> Vec<(&str, Vec<&str>)> {
    let lines = list.lines().filter(|line| !line.starts_with('#'));
    let split = lines.filter_map(|line| line.split_once(':'));
    // a static library says so after its name
    split
        .filter_map(|(name, sees)| {
            let name = name.split_whitespace().next()?;
            Some((name, sees.split_whitespace().collect()))
        })
        .collect()
}

/// What the public functions of a source lack, a line for each fault.
pub fn faults(source: &str, is_inside: bool) -> Vec<String> {
    let bare: String = source.lines().map(without_comment).collect();
    let starts = bare.match_indices("pub fn ");
    let exported = bare.match_indices("pub extern \"C\" fn ");
    let starts = starts.chain(exported).map(|(at, start)| at + start.len());
    starts
        .flat_map(|at| Head::read(&bare[at..]).faults(is_inside))
        .collect()
}

fn without_comment(line: &str) -> String {
    let code = line.split("//").next().unwrap_or_default();
    format!("{code}\n")
}

/// A function's name, its parameters, and its clauses.
struct Head<'a> {
    name: &'a str,
    parameters: &'a str,
    requires: Vec<&'a str>,
    ensures: Vec<&'a str>,
}

impl<'a> Head<'a> {
    /// Reads on from the name up to the body.
    fn read(text: &'a str) -> Head<'a> {
        let name_end = text.find('(').unwrap_or(text.len());
        let end = text.find(')').unwrap_or(text.len());
        let mut head = Head {
            name: text[..name_end].trim(),
            parameters: &text[name_end..end],
            requires: Vec::new(),
            ensures: Vec::new(),
        };
        let mut rest = &text[end..];
        while let Some(open) = rest.find('{') {
            let words: Vec<&str> = rest[..open].split_whitespace().collect();
            // a clause may have a name of its own, and one that speaks of memory has a star
            let last = words.iter().rev().take(2);
            let last: Vec<&str> = last.map(|word| word.trim_end_matches('*')).collect();
            let clause = &rest[open..close(rest, open)];
            if last.contains(&"requires") {
                head.requires.push(clause);
            } else if last.contains(&"ensures") {
                head.ensures.push(clause);
            } else {
                break;
            }
            rest = &rest[close(rest, open)..];
        }
        head
    }

    fn faults(&self, is_inside: bool) -> Vec<String> {
        let mut found = Vec::new();
        if !self.requires.is_empty() && !is_inside {
            found.push(format!("{} has a requires", self.name));
        }
        if self.ensures.is_empty() {
            found.push(format!("{} has no ensures", self.name));
        }
        for buffer in self.lent() {
            // a name that is a word of clauses stands in quotes there
            let ends = [format!("{buffer}.new"), format!("«{buffer}».new")];
            let named = |clause: &&str| ends.iter().any(|end| names(clause, end));
            if !self.ensures.iter().any(|clause| named(clause)) {
                found.push(format!("{} says nothing of {buffer} at exit", self.name));
            }
        }
        found
    }

    /// The parameters that are lent for writing.
    fn lent(&self) -> Vec<&'a str> {
        let each = self.parameters.split(['(', ',']).map(str::trim);
        // a method's own value has no type beside it
        let own = each
            .clone()
            .filter(|parameter| parameter.starts_with('&') && parameter.ends_with("mut self"));
        let typed = each.filter_map(|parameter| parameter.split_once(':'));
        let lent = typed.filter(|(_, kind)| kind.contains('&') && kind.contains("mut "));
        let lent = lent.map(|(name, _)| name.trim());
        own.map(|_| "self").chain(lent).collect()
    }
}

/// Whether a clause has this, and not only as a part of a longer name.
fn names(clause: &str, wanted: &str) -> bool {
    let is_part = |c: char| c.is_alphanumeric() || "_-'".contains(c);
    clause.match_indices(wanted).any(|(at, _)| {
        let before = clause[..at].chars().next_back();
        let after = clause[at + wanted.len()..].chars().next();
        !before.is_some_and(is_part) && !after.is_some_and(is_part)
    })
}

/// Where the brace at `open` is closed.
fn close(text: &str, open: usize) -> usize {
    let mut depth = 0;
    for (at, c) in text[open..].char_indices() {
        match c {
            '{' => depth += 1,
            '}' => depth -= 1,
            _ => {}
        }
        if depth == 0 {
            return open + at + 1;
        }
    }
    text.len()
}

#[cfg(test)]
mod tests {
    use super::*;

    const ASKS: &str = "
// pub fn none(x: u8)
pub fn fill(n: usize, to: &mut [u8]) -> usize
    requires room { n ≤ length to.old }
    ensures whole { to.new ≡ filled n }
{
    n
}
";

    #[test]
    fn a_condition_is_a_fault_of_entry_points_alone() {
        assert_eq!(faults(ASKS, false), ["fill has a requires"]);
        assert!(faults(ASKS, true).is_empty());
    }

    #[test]
    fn silence_on_the_own_value_is_a_fault() {
        let told =
            "pub fn put(&mut self, b: u8)\n    ensures { self.new ≡ put self.old b }\n{\n}\n";
        assert!(faults(told, false).is_empty());
        let silent = told.replace("self.new", "result");
        assert_eq!(faults(&silent, false), ["put says nothing of self at exit"]);
        assert!(faults(&silent.replace("&mut self", "&self"), false).is_empty());
    }

    #[test]
    fn silence_is_a_fault() {
        for other in ["to.old", "into.new", "to.newer"] {
            let silent = ASKS.replace("to.new", other);
            assert_eq!(faults(&silent, true), ["fill says nothing of to at exit"]);
        }
        let bare = "pub extern \"C\" fn f(a: &[u8],\n    b: &mut [u32]) -> u8 {\n    if true { 1 } else { 2 }\n}\n";
        let expected = ["f has no ensures", "f says nothing of b at exit"];
        assert_eq!(faults(bare, false), expected);
    }

    #[test]
    fn private_functions_are_not_looked_at() {
        assert!(faults(&ASKS.replace("pub fn fill", "pub(crate) fn fill"), false).is_empty());
    }

    #[test]
    fn crates_are_read_off_the_list() {
        let list = "# each crate\n# inside: a b\na:\nb: a\nc staticlib: a b\n";
        assert_eq!(inside(list), ["a", "b"]);
        assert_eq!(listed(list), ["a", "b", "c"]);
    }
}
