//! A value that tells its names through the stand-in of serde. The original
//! keeps a status' fields and the states' names to itself; this is how they
//! are read.

use serde::{Serialize, SerializeStruct, Serializer};
use std::convert::Infallible;

#[derive(Clone)]
pub enum Value {
    F32(f32),
    Bool(bool),
    Name(&'static str),
    Fields(Vec<(&'static str, Value)>),
}

pub fn of(x: &impl Serialize) -> Value {
    match x.serialize(Maker) {
        Ok(value) => value,
    }
}

impl Value {
    pub fn field(&self, name: &str) -> &Value {
        let Value::Fields(fields) = self else {
            panic!("no fields")
        };
        &fields
            .iter()
            .find(|f| f.0 == name)
            .expect("no such field")
            .1
    }

    pub fn float(&self) -> f32 {
        let Value::F32(x) = self else {
            panic!("no f32")
        };
        *x
    }

    pub fn flag(&self) -> bool {
        let Value::Bool(x) = self else {
            panic!("no flag")
        };
        *x
    }

    pub fn name(&self) -> &'static str {
        let Value::Name(x) = self else {
            panic!("no name")
        };
        x
    }
}

struct Maker;

struct FieldsMaker(Vec<(&'static str, Value)>);

impl Serializer for Maker {
    type Ok = Value;
    type Error = Infallible;
    type SerializeStruct = FieldsMaker;

    fn serialize_f32(self, x: f32) -> Result<Value, Infallible> {
        Ok(Value::F32(x))
    }

    fn serialize_bool(self, x: bool) -> Result<Value, Infallible> {
        Ok(Value::Bool(x))
    }

    fn serialize_unit_variant(
        self,
        _: &str,
        _: u32,
        case: &'static str,
    ) -> Result<Value, Infallible> {
        Ok(Value::Name(case))
    }

    fn serialize_struct(self, _: &str, _: usize) -> Result<FieldsMaker, Infallible> {
        Ok(FieldsMaker(Vec::new()))
    }
}

impl SerializeStruct for FieldsMaker {
    type Ok = Value;
    type Error = Infallible;

    fn serialize_field<T: Serialize>(
        &mut self,
        name: &'static str,
        x: &T,
    ) -> Result<(), Infallible> {
        self.0.push((name, of(x)));
        Ok(())
    }

    fn end(self) -> Result<Value, Infallible> {
        Ok(Value::Fields(self.0))
    }
}
