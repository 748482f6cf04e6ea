//! Clause words as DIMACS text and back: variable v is number v + 1.

/// The text of clause words. With `turned`, true and false change places in every literal.
pub fn write(list: &[u16], variables: usize, turned: bool) -> String {
    let mut count = 0;
    let mut text = String::new();
    let mut rest = list;
    while let [length, tail @ ..] = rest {
        let (clause, after) = tail.split_at(*length as usize);
        for l in clause {
            let sign = if (l % 2 == 1) != turned { "-" } else { "" };
            text.push_str(&format!("{sign}{} ", l / 2 + 1));
        }
        text.push_str("0\n");
        count += 1;
        rest = after;
    }
    format!("p cnf {variables} {count}\n{text}")
}

/// The clause words of a text, and the number of variables.
pub fn read(text: &str) -> (Vec<u16>, usize) {
    let (head, body) = text.split_once('\n').expect("a first line");
    let variables = head.split_whitespace().nth(2).expect("a number of variables").parse().expect("a number");
    let mut list = vec![0u16];
    let mut start = 0;
    for word in body.split_ascii_whitespace() {
        match word.parse::<i32>().expect("a literal") {
            0 => {
                list[start] = (list.len() - start - 1) as u16;
                start = list.len();
                list.push(0);
            }
            l => list.push(2 * (l.unsigned_abs() as u16 - 1) + (l < 0) as u16),
        }
    }
    list.truncate(start);
    (list, variables)
}
