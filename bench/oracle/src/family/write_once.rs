use super::{carried, Family, VALUES};
use crate::values::{value, values};
use capture::Random;
use stateright::semantics::write_once_register::{WORegister, WORegisterOp, WORegisterRet};

impl Family for WORegister<i32> {
    const NUMBER: i64 = 1;

    fn starts() -> Vec<Vec<i32>> {
        [vec![]]
            .into_iter()
            .chain(VALUES.iter().map(|v| vec![*v]))
            .collect()
    }

    fn random_start(random: &mut Random) -> Vec<i32> {
        let count = random.pick(&[0, 0, 0, 1]);
        values(random, count)
    }

    fn holding(values: &[i32]) -> Self {
        WORegister(values.first().copied())
    }

    fn held(&self) -> Vec<i32> {
        self.0.into_iter().collect()
    }

    fn operations() -> Vec<Self::Op> {
        VALUES
            .iter()
            .map(|v| WORegisterOp::Write(*v))
            .chain([WORegisterOp::Read])
            .collect()
    }

    fn returns() -> Vec<Self::Ret> {
        let read = VALUES.iter().map(|v| WORegisterRet::ReadOk(Some(*v)));
        read.chain([
            WORegisterRet::WriteOk,
            WORegisterRet::WriteFail,
            WORegisterRet::ReadOk(None),
        ])
        .collect()
    }

    fn few() -> Vec<(Self::Op, Vec<Self::Ret>)> {
        let written = vec![WORegisterRet::WriteOk, WORegisterRet::WriteFail];
        let read = vec![WORegisterRet::ReadOk(None), WORegisterRet::ReadOk(Some(1))];
        vec![
            (WORegisterOp::Write(1), written.clone()),
            (WORegisterOp::Write(2), written),
            (WORegisterOp::Read, read),
        ]
    }

    fn random_operation(&self, random: &mut Random) -> Self::Op {
        match random.below(2) {
            0 => WORegisterOp::Write(value(random)),
            _ => WORegisterOp::Read,
        }
    }

    fn random_return(&self, random: &mut Random) -> Self::Ret {
        match random.below(5) {
            0 => WORegisterRet::WriteOk,
            1 => WORegisterRet::WriteFail,
            2 => WORegisterRet::ReadOk(None),
            _ => WORegisterRet::ReadOk(Some(value(random))),
        }
    }

    fn operation_numbers(op: &Self::Op) -> [i64; 2] {
        match op {
            WORegisterOp::Write(v) => [0, (*v).into()],
            WORegisterOp::Read => [1, 0],
        }
    }

    fn return_numbers(ret: &Self::Ret) -> [i64; 3] {
        match ret {
            WORegisterRet::WriteOk => carried(0, None),
            WORegisterRet::WriteFail => carried(1, None),
            WORegisterRet::ReadOk(v) => carried(2, *v),
        }
    }
}
