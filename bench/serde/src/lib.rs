//! Stand-in for serde: the traits that stateright's semantics module names, so that it compiles
//! unchanged without a registry. There is no format behind them.

pub use serde_derive::Serialize;

pub trait Serialize {
    fn serialize<S: Serializer>(&self, serializer: S) -> Result<S::Ok, S::Error>;
}

pub trait Serializer: Sized {
    type Ok;
    type Error;
    type SerializeStruct: ser::SerializeStruct<Ok = Self::Ok, Error = Self::Error>;

    fn serialize_struct(
        self,
        name: &'static str,
        fields: usize,
    ) -> Result<Self::SerializeStruct, Self::Error>;
}

pub mod ser {
    pub trait SerializeStruct {
        type Ok;
        type Error;

        fn serialize_field<T: ?Sized>(
            &mut self,
            name: &'static str,
            value: &T,
        ) -> Result<(), Self::Error>;
        fn end(self) -> Result<Self::Ok, Self::Error>;
    }
}
