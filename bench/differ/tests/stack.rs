//! The exported call on a thread of 256 KiB, at its deepest: 64 operations of eight threads, a long search.

use capture::{Capture, Object, RegisterOp, RegisterRet, StackOp, StackRet};
use differ::judge::STACK;
use std::thread::Builder;

/// On a thread with the small stack.
fn judged(file: Vec<u8>, model: u32, budget: u64) -> [u8; 79] {
    let call = move || {
        let mut answer = [0; 79];
        assert_eq!(kilteshva::raw::judge(&file, model, budget, &mut answer), 0);
        answer
    };
    let thread = Builder::new().stack_size(STACK).spawn(call);
    thread.expect("a thread").join().expect("an answer")
}

/// Eight rounds in which all eight threads overlap.
fn rounds(start: Object, round: impl Fn(Capture, u32, bool) -> Capture) -> Capture {
    let mut capture = Capture::of(start);
    for _ in 0..8 {
        for invoked in [true, false] {
            for thread in 0..8 {
                capture = round(capture, thread, invoked);
            }
        }
    }
    capture
}

fn pushes() -> Capture {
    let start = Object::Stack(vec![i32::MIN; 32]);
    rounds(start, |capture, thread, invoked| match invoked {
        true => capture.invoke(thread, StackOp::Push(thread as i32)),
        false => capture.returns(thread, StackRet::PushOk),
    })
}

#[test]
fn a_stack_of_96_and_an_order_of_64() {
    for model in [0, 1] {
        let answer = judged(pushes().bytes(), model, u64::MAX);
        assert_eq!(answer[..3], [0, 0, 64]);
    }
}

#[test]
fn a_search_that_comes_back_from_its_deepest_place() {
    let start = Object::Register(0);
    let mut capture = rounds(start, |capture, thread, invoked| match invoked {
        true => capture.invoke(thread, RegisterOp::Write(1)),
        false => capture.returns(thread, RegisterRet::WriteOk),
    });
    // The last Write of thread 7 is a Read of what nobody wrote.
    capture.events.truncate(capture.events.len() - 1);
    capture = capture.returns(7, RegisterRet::ReadOk(2));
    for model in [0, 1] {
        let answer = judged(capture.bytes(), model, 1_000_000);
        assert_eq!(answer[..3], [2, 0, 0], "Undecided");
    }
}

#[test]
fn the_longest_file() {
    let mut file = pushes().bytes();
    file.resize(65_536, 0);
    let answer = judged(file.clone(), 1, u64::MAX);
    assert_eq!(answer[..2], [4, 6], "a 65th operation");
    file.push(0);
    assert_eq!(judged(file, 1, u64::MAX)[..2], [4, 20]);
}
