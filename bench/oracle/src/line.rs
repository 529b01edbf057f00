//! A line of the lists: decimal numbers with one blank between them.

pub fn of(numbers: &[i64]) -> String {
    let words: Vec<String> = numbers.iter().map(i64::to_string).collect();
    words.join(" ") + "\n"
}

/// A count as a number of a line.
pub fn count(count: usize) -> i64 {
    i64::try_from(count).expect("a count")
}

/// n v1 … vn
pub fn counted(values: &[i32]) -> Vec<i64> {
    let mut numbers = vec![count(values.len())];
    numbers.extend(values.iter().copied().map(i64::from));
    numbers
}
