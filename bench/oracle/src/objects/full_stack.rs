//! Stacks filled to the last place of the port's stack and emptied again, one value at a time.

use super::transcript::Transcript;
use crate::family::{Family, ROOM};
use crate::values::values;
use capture::Random;
use stateright::semantics::vec::{VecOp, VecRet};

type Stack = Vec<i32>;
type Step = (VecOp<i32>, VecRet<i32>);

pub fn answers(random: &mut Random) -> String {
    [
        by_invoke(random),
        by_step(random),
        by_wrong_pops(random),
        by_history(random),
    ]
    .concat()
}

fn by_invoke(random: &mut Random) -> String {
    let mut transcript = Transcript::<Stack>::starting(&[]);
    for value in values(random, ROOM) {
        transcript.invoke(VecOp::Push(value));
    }
    transcript.invoke(VecOp::Len);
    for _ in 0..=ROOM {
        transcript.invoke(VecOp::Pop);
    }
    transcript.invoke(VecOp::Len);
    transcript.text()
}

fn by_step(random: &mut Random) -> String {
    let mut transcript = Transcript::<Stack>::starting(&[]);
    for value in values(random, ROOM) {
        transcript.step(VecOp::Push(value), VecRet::PushOk);
    }
    steps_that_keep(&mut transcript);
    for _ in 0..=ROOM {
        let top = transcript.object.last().copied();
        transcript.step(VecOp::Pop, VecRet::PopOk(top));
    }
    transcript.text()
}

/// Every step that leaves a full stack as it is.
fn steps_that_keep(transcript: &mut Transcript<Stack>) {
    for length in [0, ROOM - 1, ROOM, ROOM + 1] {
        transcript.step(VecOp::Len, VecRet::LenOk(length));
    }
    for ret_index in 0..Stack::returns().len() {
        for op in Stack::operations() {
            let ret = Stack::returns().swap_remove(ret_index);
            if !matches!(
                (&op, &ret),
                (VecOp::Push(_), VecRet::PushOk) | (VecOp::Pop, VecRet::PopOk(_))
            ) {
                transcript.step(op, ret);
            }
        }
    }
}

/// A wrong Pop pops all the same, down to the empty stack and there again.
fn by_wrong_pops(random: &mut Random) -> String {
    let mut transcript = Transcript::<Stack>::starting(&values(random, ROOM));
    for place in 0..ROOM + 3 {
        let wrong = match transcript.object.last() {
            Some(_) if place % 3 == 0 => None,
            Some(top) => Some(top.wrapping_add(1)),
            None => Some(0),
        };
        transcript.step(VecOp::Pop, VecRet::PopOk(wrong));
    }
    transcript.text()
}

fn by_history(random: &mut Random) -> String {
    let values = values(random, ROOM);
    let lives = [
        vec![there_and_back(&values)],
        vec![pushes(&values), pops(&values)],
        vec![with_wrong_pop(&values, ROOM)],
        vec![with_wrong_pop(&values, 2 * ROOM - 1)],
    ];
    lives.into_iter().map(life).collect()
}

/// These histories in turn, from the empty stack.
fn life(histories: Vec<Vec<Step>>) -> String {
    let mut transcript = Transcript::<Stack>::starting(&[]);
    for history in histories {
        transcript.history(history);
    }
    transcript.text()
}

fn pushes(values: &[i32]) -> Vec<Step> {
    values
        .iter()
        .map(|v| (VecOp::Push(*v), VecRet::PushOk))
        .collect()
}

fn pops(values: &[i32]) -> Vec<Step> {
    values
        .iter()
        .rev()
        .map(|v| (VecOp::Pop, VecRet::PopOk(Some(*v))))
        .collect()
}

fn there_and_back(values: &[i32]) -> Vec<Step> {
    [pushes(values), pops(values)].concat()
}

/// There and back, with a Pop of nothing at this place.
fn with_wrong_pop(values: &[i32], place: usize) -> Vec<Step> {
    let mut steps = there_and_back(values);
    steps[place] = (VecOp::Pop, VecRet::PopOk(None));
    steps
}
