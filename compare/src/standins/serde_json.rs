//! serde_json: the names that rendering to JSON asks for.

pub struct Value;

pub mod error {
    #[derive(Debug)]
    pub struct Error;
}

pub fn from_str(_: &str) -> Result<Value, error::Error> {
    Err(error::Error)
}
