//! Stands in for deno_error. Nothing of it is called.

#[derive(Debug)]
pub struct JsErrorBox(pub String);

impl JsErrorBox {
    pub fn from_err<E: std::fmt::Debug>(error: E) -> Self {
        JsErrorBox(format!("{error:?}"))
    }
}
