//! What is left of a clause list once all that follows without a guess is set: plainly, for a number to be printed.

/// The variable of a pair of states.
fn pair(p: usize, q: usize) -> usize {
    let (low, high) = (p.min(q), p.max(q));
    high * (high - 1) / 2 + low
}

/// The clauses of a list.
fn clauses(list: &[u16]) -> impl Iterator<Item = &[u16]> {
    let mut rest = list;
    std::iter::from_fn(move || {
        let (length, tail) = rest.split_first()?;
        let (clause, after) = tail.split_at(*length as usize);
        rest = after;
        Some(clause)
    })
}

/// Whether a literal is true, where its variable is set.
fn truth(values: &[Option<bool>], literal: u16) -> Option<bool> {
    values[literal as usize / 2].map(|x| x == (literal % 2 == 0))
}

/// Sets what a clause forces; whether it forced something.
fn force(values: &mut [Option<bool>], clause: &[u16]) -> bool {
    if clause.iter().any(|&l| truth(values, l) == Some(true)) {
        return false;
    }
    let mut open = clause.iter().filter(|&&l| truth(values, l).is_none());
    match (open.next(), open.next()) {
        (Some(&l), None) => {
            values[l as usize / 2] = Some(l % 2 == 0);
            true
        }
        _ => false,
    }
}

/// The words left of a list of n states' pairs: a unit for each variable that is set, and every clause that does not hold. Joined states are transitive.
pub fn left_at_rest(list: &[u16], n: usize) -> usize {
    let mut values = vec![None; n * n.saturating_sub(1) / 2];
    let mut again = true;
    while again {
        again = false;
        clauses(list).for_each(|clause| again |= force(&mut values, clause));
        for (p, q, s) in (0..n).flat_map(|p| (0..n).flat_map(move |q| (0..n).map(move |s| (p, q, s)))) {
            if p != q && q < s && p != s {
                let [a, b, c] = [pair(p, q), pair(p, s), pair(q, s)].map(|v| 2 * v as u16);
                again |= force(&mut values, &[a + 1, b + 1, c]);
            }
        }
    }
    let waiting = clauses(list).filter(|clause| !clause.iter().any(|&l| truth(&values, l) == Some(true)));
    2 * values.iter().flatten().count() + waiting.map(|clause| 1 + clause.len()).sum::<usize>()
}
