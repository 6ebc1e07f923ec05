//! A call with all that it is given but the table and the buffer.

use second::Called;

/// A transaction's flag and value.
pub type Named = (u8, u8);

#[derive(Clone, Debug)]
pub enum Call {
    Receive(Vec<u8>),
    Begin(u8, i8, Vec<u8>),
    Invoke(Named, u8, i8, Vec<u8>),
    Result(Named, i8, Vec<u8>),
    Error(Named, i8, u8, Vec<u8>),
    Release(Named),
}

impl Call {
    /// What a local call gives on the second program.
    pub fn called(&self, table: &[u8], b: &[u8]) -> Option<Called> {
        match self {
            Call::Receive(_) => None,
            Call::Begin(operation, id, p) => Some(second::begin(table, *operation, *id, p, b)),
            Call::Invoke(n, operation, id, p) => {
                Some(second::invoke(table, *n, *operation, *id, p, b))
            }
            Call::Result(n, id, p) => Some(second::result(table, *n, *id, p, b)),
            Call::Error(n, id, code, p) => Some(second::error(table, *n, *id, *code, p, b)),
            Call::Release(n) => Some(second::release(table, *n, b)),
        }
    }

    /// The parameter of a local call that has one.
    pub fn parameter(&self) -> Option<&[u8]> {
        match self {
            Call::Receive(_) | Call::Release(_) => None,
            Call::Begin(.., p) | Call::Invoke(.., p) => Some(p),
            Call::Result(.., p) | Call::Error(.., p) => Some(p),
        }
    }
}
