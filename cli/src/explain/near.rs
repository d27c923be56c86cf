//! Words that a mistyped word may stand for.

/// A longer word is no slip of a word that a text may have.
const LONGEST: usize = 12;

/// The words nearest to one that is none of them: one or two slips away, and alike in more than
/// half of their letters.
pub fn near(word: &str, words: &[&'static str]) -> Vec<&'static str> {
    if word.len() > LONGEST {
        return Vec::new();
    }
    let slips = words.iter().map(|&other| (distance(word.as_bytes(), other.as_bytes()), other));
    let alike = |slips: usize, other: &str| slips <= 2 && 2 * slips < word.len().max(other.len());
    let alike: Vec<_> = slips.filter(|&(slips, other)| alike(slips, other)).collect();
    let fewest = alike.iter().map(|&(slips, _)| slips).min();
    alike.into_iter().filter(|&(slips, _)| Some(slips) == fewest).map(|(_, other)| other).collect()
}

/// How many slips lead from a word to another: a letter more, less or changed, or two swapped.
fn distance(a: &[u8], b: &[u8]) -> usize {
    let mut rows: Vec<Vec<usize>> = vec![(0..=b.len()).collect()];
    for i in 1..=a.len() {
        let mut row = vec![i];
        for j in 1..=b.len() {
            let changed = rows[i - 1][j - 1] + usize::from(a[i - 1] != b[j - 1]);
            let mut least = changed.min(rows[i - 1][j] + 1).min(row[j - 1] + 1);
            if i > 1 && j > 1 && (a[i - 2], a[i - 1]) == (b[j - 1], b[j - 2]) {
                least = least.min(rows[i - 2][j - 2] + 1);
            }
            row.push(least);
        }
        rows.push(row);
    }
    rows[a.len()][b.len()]
}
