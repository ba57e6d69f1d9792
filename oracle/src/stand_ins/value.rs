//! Pushed values: scalars, and arrays that only show that they have a rank.

use crate::Complex;

#[derive(Debug, Clone, PartialEq)]
pub struct Array<T> {
    pub shape: Vec<usize>,
    pub data: Vec<T>,
}

impl<T> Array<T> {
    pub fn scalar(item: T) -> Self {
        Self {
            shape: Vec::new(),
            data: vec![item],
        }
    }
}

#[derive(Debug, Clone, PartialEq)]
pub enum Value {
    Num(Array<f64>),
    Byte(Array<u8>),
    Complex(Array<Complex>),
    Char(Array<char>),
}

impl Value {
    pub fn rank(&self) -> usize {
        match self {
            Value::Num(array) => array.shape.len(),
            Value::Byte(array) => array.shape.len(),
            Value::Complex(array) => array.shape.len(),
            Value::Char(array) => array.shape.len(),
        }
    }
}

impl From<f64> for Value {
    fn from(number: f64) -> Self {
        Value::Num(Array::scalar(number))
    }
}

impl From<i32> for Value {
    fn from(number: i32) -> Self {
        f64::from(number).into()
    }
}

impl From<Complex> for Value {
    fn from(number: Complex) -> Self {
        Value::Complex(Array::scalar(number))
    }
}
