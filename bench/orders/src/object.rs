//! The three objects, as their description has them.

#[derive(Clone, Copy, Debug, Eq, PartialEq)]
pub enum Operation {
    Write(i32),
    Read,
    Push(i32),
    Pop,
    Len,
}

#[derive(Clone, Copy, Debug, Eq, PartialEq)]
pub enum Return {
    WriteOk,
    WriteFail,
    ReadOk(Option<i32>),
    PushOk,
    PopOk(Option<i32>),
    LenOk(u32),
}

#[derive(Clone, Debug)]
pub enum Object {
    Register(i32),
    WriteOnce(Option<i32>),
    /// The bottom first.
    Stack(Vec<i32>),
}

impl Object {
    pub fn invoke(&mut self, operation: Operation) -> Return {
        match (self, operation) {
            (Object::Register(held), Operation::Write(value)) => {
                *held = value;
                Return::WriteOk
            }
            (Object::Register(held), Operation::Read) => Return::ReadOk(Some(*held)),
            (Object::WriteOnce(held), Operation::Write(value)) => match *held {
                None => {
                    *held = Some(value);
                    Return::WriteOk
                }
                Some(stored) if stored == value => Return::WriteOk,
                Some(_) => Return::WriteFail,
            },
            (Object::WriteOnce(held), Operation::Read) => Return::ReadOk(*held),
            (Object::Stack(held), Operation::Push(value)) => {
                held.push(value);
                Return::PushOk
            }
            (Object::Stack(held), Operation::Pop) => Return::PopOk(held.pop()),
            (Object::Stack(held), Operation::Len) => {
                Return::LenOk(u32::try_from(held.len()).expect("a length"))
            }
            _ => panic!("an operation of another family"),
        }
    }
}
