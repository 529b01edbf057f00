use super::{carried, Family, VALUES};
use crate::values::{value, values};
use capture::Random;
use stateright::semantics::vec::{VecOp, VecRet};

/// How many values the port's stack has room for: no stack of the list holds more.
pub const ROOM: usize = 96;

/// How many values a stack starts a longer walk with, at most.
const START: usize = 32;

impl Family for Vec<i32> {
    const NUMBER: i64 = 2;

    fn starts() -> Vec<Vec<i32>> {
        vec![
            vec![],
            vec![0],
            vec![1],
            vec![0, 1],
            vec![-1, -1],
            vec![i32::MIN, 0, i32::MAX],
        ]
    }

    fn random_start(random: &mut Random) -> Vec<i32> {
        let many = random.below(START + 1);
        let count = random.pick(&[0, 1, 2, 3, many]);
        values(random, count)
    }

    fn holding(values: &[i32]) -> Self {
        values.to_vec()
    }

    fn held(&self) -> Vec<i32> {
        self.clone()
    }

    fn operations() -> Vec<Self::Op> {
        VALUES
            .iter()
            .map(|v| VecOp::Push(*v))
            .chain([VecOp::Pop, VecOp::Len])
            .collect()
    }

    fn returns() -> Vec<Self::Ret> {
        let pop = VALUES.iter().map(|v| VecRet::PopOk(Some(*v)));
        let len = [0, 1, 2, 3, u32::MAX as usize].map(VecRet::LenOk);
        pop.chain(len)
            .chain([VecRet::PushOk, VecRet::PopOk(None)])
            .collect()
    }

    fn few() -> Vec<(Self::Op, Vec<Self::Ret>)> {
        vec![
            (VecOp::Push(1), vec![VecRet::PushOk]),
            (
                VecOp::Pop,
                vec![VecRet::PopOk(None), VecRet::PopOk(Some(1))],
            ),
            (VecOp::Len, vec![VecRet::LenOk(0), VecRet::LenOk(1)]),
        ]
    }

    fn random_operation(&self, random: &mut Random) -> Self::Op {
        match random.below(5) {
            0 | 1 if self.len() < ROOM => VecOp::Push(value(random)),
            4 => VecOp::Len,
            _ => VecOp::Pop,
        }
    }

    fn random_return(&self, random: &mut Random) -> Self::Ret {
        match random.below(5) {
            0 => VecRet::PushOk,
            1 => VecRet::PopOk(None),
            2 => VecRet::LenOk(random.pick(&[0, 1, self.len() + 1, self.len()])),
            _ => VecRet::PopOk(Some(value(random))),
        }
    }

    fn operation_numbers(op: &Self::Op) -> [i64; 2] {
        match op {
            VecOp::Push(v) => [0, (*v).into()],
            VecOp::Pop => [1, 0],
            VecOp::Len => [2, 0],
        }
    }

    fn return_numbers(ret: &Self::Ret) -> [i64; 3] {
        match ret {
            VecRet::PushOk => carried(0, None),
            VecRet::PopOk(v) => carried(1, *v),
            VecRet::LenOk(n) => [2, 1, i64::try_from(*n).expect("a length")],
        }
    }
}
