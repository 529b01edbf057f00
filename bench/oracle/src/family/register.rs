use super::{carried, Family, VALUES};
use crate::values::{value, values};
use capture::Random;
use stateright::semantics::register::{Register, RegisterOp, RegisterRet};

impl Family for Register<i32> {
    const NUMBER: i64 = 0;

    fn starts() -> Vec<Vec<i32>> {
        VALUES.iter().map(|v| vec![*v]).collect()
    }

    fn random_start(random: &mut Random) -> Vec<i32> {
        values(random, 1)
    }

    fn holding(values: &[i32]) -> Self {
        Register(values[0])
    }

    fn held(&self) -> Vec<i32> {
        vec![self.0]
    }

    fn operations() -> Vec<Self::Op> {
        VALUES
            .iter()
            .map(|v| RegisterOp::Write(*v))
            .chain([RegisterOp::Read])
            .collect()
    }

    fn returns() -> Vec<Self::Ret> {
        VALUES
            .iter()
            .map(|v| RegisterRet::ReadOk(*v))
            .chain([RegisterRet::WriteOk])
            .collect()
    }

    fn few() -> Vec<(Self::Op, Vec<Self::Ret>)> {
        vec![
            (RegisterOp::Write(1), vec![RegisterRet::WriteOk]),
            (
                RegisterOp::Read,
                vec![RegisterRet::ReadOk(0), RegisterRet::ReadOk(1)],
            ),
        ]
    }

    fn random_operation(&self, random: &mut Random) -> Self::Op {
        match random.below(2) {
            0 => RegisterOp::Write(value(random)),
            _ => RegisterOp::Read,
        }
    }

    fn random_return(&self, random: &mut Random) -> Self::Ret {
        match random.below(3) {
            0 => RegisterRet::WriteOk,
            _ => RegisterRet::ReadOk(value(random)),
        }
    }

    fn operation_numbers(op: &Self::Op) -> [i64; 2] {
        match op {
            RegisterOp::Write(v) => [0, (*v).into()],
            RegisterOp::Read => [1, 0],
        }
    }

    fn return_numbers(ret: &Self::Ret) -> [i64; 3] {
        match ret {
            RegisterRet::WriteOk => carried(0, None),
            RegisterRet::ReadOk(v) => carried(1, Some(*v)),
        }
    }
}
