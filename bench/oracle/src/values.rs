//! Values of a list: from a small set, so that equal ones meet often; at times an extreme one.

use capture::Random;

pub fn value(random: &mut Random) -> i32 {
    random.pick(&[0, 1, 2, 0, 1, 2, 3, -1, i32::MIN, i32::MAX])
}

pub fn values(random: &mut Random, count: usize) -> Vec<i32> {
    (0..count).map(|_| value(random)).collect()
}
