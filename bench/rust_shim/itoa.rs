//! What the crates use of the port of itoa.
#![allow(warnings)]

pub struct Buffer {
    text: std::string::String,
}

impl Buffer {
    pub fn new() -> Buffer {
        Buffer {
            text: std::string::String::new(),
        }
    }

    pub fn format<T: std::fmt::Display>(&mut self, number: T) -> &str {
        self.text = std::format!("{number}");
        &self.text
    }
}
