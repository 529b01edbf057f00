//! Loading a corpus file: its header, then event by event, up to the first refusal of any kind.

use crate::numbers::Cursor;
use crate::recording::Tester;
use crate::sizes::{FILE, INITIAL_STACK};
use capture::{
    Call, Event, Object, Op, RegisterOp, RegisterRet, Ret, StackOp, StackRet, WriteOnceOp,
    WriteOnceRet, OPENING,
};

const TOO_LONG: u8 = 20;
const NOT_A_CORPUS_FILE: u8 = 21;
const UNKNOWN: u8 = 24;
const INITIAL_STACK_TOO_DEEP: u8 = 25;

/// What loading a file comes to.
#[derive(Clone, Debug, PartialEq)]
pub struct Loaded {
    /// The first refusal's number, or 0.
    pub number: u8,
    /// Where the refused event starts; 0 for a header, or where all loads.
    pub place: u32,
    pub tester: Tester,
    /// The events handed to the tester; the last of them was refused if the number is below 10.
    pub events: Vec<Event>,
}

pub fn load(file: &[u8]) -> Loaded {
    let mut cursor = Cursor::new(file, OPENING.len());
    let start = if file.len() > FILE {
        Err(TOO_LONG)
    } else if !file.starts_with(&OPENING) {
        Err(NOT_A_CORPUS_FILE)
    } else {
        header(&mut cursor)
    };
    match start {
        Ok(start) => events(cursor, start),
        Err(number) => Loaded {
            number,
            place: 0,
            tester: Tester::new(Object::Register(0)),
            events: Vec::new(),
        },
    }
}

/// All events to the end, each read whole and then recorded.
fn events(mut cursor: Cursor, start: Object) -> Loaded {
    let mut loaded = Loaded {
        number: 0,
        place: 0,
        tester: Tester::new(start),
        events: Vec::new(),
    };
    while loaded.number == 0 && !cursor.is_at_end() {
        let place = u32::try_from(cursor.at()).expect("a place of a short file");
        loaded.number = match event(&mut cursor, &loaded.tester.start) {
            Ok(event) => {
                loaded.events.push(event);
                loaded.tester.on_event(event)
            }
            Err(number) => number,
        };
        if loaded.number != 0 {
            loaded.place = place;
        }
    }
    loaded
}

/// "Object (0 register, 1 write-once, 2 stack), then its start: a value; or flag 0, or flag 1 and a value; or
/// a count and values, bottom first."
fn header(cursor: &mut Cursor) -> Result<Object, u8> {
    match cursor.number()? {
        0 => Ok(Object::Register(cursor.value()?)),
        1 => Ok(Object::WriteOnce(flagged(cursor)?)),
        2 => {
            let count = cursor.number()?;
            if count > INITIAL_STACK {
                return Err(INITIAL_STACK_TOO_DEEP);
            }
            let values: Result<Vec<i32>, u8> = (0..count).map(|_| cursor.value()).collect();
            Ok(Object::Stack(values?))
        }
        _ => Err(UNKNOWN),
    }
}

/// "A number 2·thread (invoke) or 2·thread + 1 (return); the operation or return number; then its value, flag
/// and value, or length."
fn event(cursor: &mut Cursor, object: &Object) -> Result<Event, u8> {
    let first = cursor.number()?;
    let call = if first % 2 == 0 {
        Call::Invoke(operation(cursor, object)?)
    } else {
        Call::Return(returned(cursor, object)?)
    };
    Ok(Event {
        thread: first / 2,
        call,
    })
}

fn operation(cursor: &mut Cursor, object: &Object) -> Result<Op, u8> {
    Ok(match (object, cursor.number()?) {
        (Object::Register(_), 0) => RegisterOp::Write(cursor.value()?).into(),
        (Object::Register(_), 1) => RegisterOp::Read.into(),
        (Object::WriteOnce(_), 0) => WriteOnceOp::Write(cursor.value()?).into(),
        (Object::WriteOnce(_), 1) => WriteOnceOp::Read.into(),
        (Object::Stack(_), 0) => StackOp::Push(cursor.value()?).into(),
        (Object::Stack(_), 1) => StackOp::Pop.into(),
        (Object::Stack(_), 2) => StackOp::Len.into(),
        _ => return Err(UNKNOWN),
    })
}

fn returned(cursor: &mut Cursor, object: &Object) -> Result<Ret, u8> {
    Ok(match (object, cursor.number()?) {
        (Object::Register(_), 0) => RegisterRet::WriteOk.into(),
        (Object::Register(_), 1) => RegisterRet::ReadOk(cursor.value()?).into(),
        (Object::WriteOnce(_), 0) => WriteOnceRet::WriteOk.into(),
        (Object::WriteOnce(_), 1) => WriteOnceRet::WriteFail.into(),
        (Object::WriteOnce(_), 2) => WriteOnceRet::ReadOk(flagged(cursor)?).into(),
        (Object::Stack(_), 0) => StackRet::PushOk.into(),
        (Object::Stack(_), 1) => StackRet::PopOk(flagged(cursor)?).into(),
        (Object::Stack(_), 2) => StackRet::LenOk(cursor.number()?).into(),
        _ => return Err(UNKNOWN),
    })
}

/// Flag 0 is nothing, flag 1 is followed by a value.
fn flagged(cursor: &mut Cursor) -> Result<Option<i32>, u8> {
    match cursor.number()? {
        0 => Ok(None),
        1 => Ok(Some(cursor.value()?)),
        _ => Err(UNKNOWN),
    }
}
