//! Names of states and operations. An object file has room for names only in its free text: there a line `states:` or
//! `operations:` may list them, in the order of their numbers.

/// How many members in a row are listed one by one.
const MOST_IN_A_ROW: usize = 3;

/// The names of one kind, or none: then its members go by their numbers.
#[derive(Default, PartialEq, Eq)]
pub struct Names {
    names: Vec<String>,
    /// Why a list in the text names nothing.
    pub misfit: Option<String>,
}

impl Names {
    /// The names in the first list of this kind in the text that has a name for each of `count` members.
    pub fn in_text(text: &[u8], kind: &str, count: usize) -> Names {
        let start = format!("{kind}s:");
        let mut found = Names::default();
        for line in text.split(|byte| *byte == b'\n') {
            let Some(list) = std::str::from_utf8(line)
                .ok()
                .and_then(|line| line.strip_prefix(&start))
            else {
                continue;
            };
            let names: Vec<String> = list.split_whitespace().map(String::from).collect();
            match misfit(&names, count) {
                None => return Names { names, misfit: None },
                Some(reason) => {
                    found.misfit = Some(format!("the text's line '{start}' is not used: {reason}"))
                }
            }
        }
        found
    }

    /// The name of a member, else its number.
    pub fn of(&self, number: usize) -> String {
        self.names
            .get(number)
            .cloned()
            .unwrap_or_else(|| number.to_string())
    }

    /// The number of a member in at least this width, and its name if it has one.
    pub fn numbered(&self, number: usize, width: usize) -> String {
        match self.names.get(number) {
            Some(name) => format!("{number:<width$} {name}"),
            None => number.to_string(),
        }
    }

    /// Members of rising numbers, with their names if they have any; of many in a row the first and the last.
    pub fn list(&self, numbers: &[usize]) -> String {
        let rows = numbers.chunk_by(|one, next| one + 1 == *next);
        let words: Vec<String> = rows.flat_map(|row| self.in_a_row(row)).collect();
        words.join(", ")
    }

    fn in_a_row(&self, row: &[usize]) -> Vec<String> {
        let numbered = |number: &usize| self.numbered(*number, 0);
        match row {
            [first, .., last] if row.len() > MOST_IN_A_ROW => {
                vec![format!("{} to {}", numbered(first), numbered(last))]
            }
            few => few.iter().map(numbered).collect(),
        }
    }

    /// The number of a member that is given by name or number.
    pub fn number(&self, word: &str) -> Option<usize> {
        match word.bytes().all(|byte| byte.is_ascii_digit()) {
            true => word.parse().ok(),
            false => self.names.iter().position(|name| name == word),
        }
    }

    /// Whether members have names.
    pub fn any(&self) -> bool {
        !self.names.is_empty()
    }

    /// The width of the longest of `count` names or numbers.
    pub fn width(&self, count: usize) -> usize {
        (0..count)
            .map(|number| self.of(number).chars().count())
            .max()
            .unwrap_or(0)
    }
}

/// Why a list is none of names for `count` members.
fn misfit(names: &[String], count: usize) -> Option<String> {
    let mut sorted = names.to_vec();
    sorted.sort();
    let twice = sorted.windows(2).find(|pair| pair[0] == pair[1]);
    let odd = names.iter().find(|name| !is_name(name));
    match (names.len() == count, twice, odd) {
        (false, _, _) => Some(format!("it has {} names for {count}", names.len())),
        (_, Some(pair), _) => Some(format!("{} stands twice", pair[0])),
        (_, _, Some(odd)) => Some(format!("{odd} is no name")),
        _ => None,
    }
}

/// Letters, digits, `-` and `_`, a letter first: no name is a number, an arrow or a comment.
fn is_name(word: &str) -> bool {
    word.starts_with(char::is_alphabetic) && word.chars().all(|c| c.is_alphanumeric() || c == '-' || c == '_')
}
