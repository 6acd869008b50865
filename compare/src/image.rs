//! An image as it is handed to a check, with how it was made.

#[derive(Clone)]
pub struct Image {
    pub bytes: Vec<u8>,
    /// The length of the block map handed in.
    pub map_length: usize,
    /// The damages, in words.
    pub made: Vec<String>,
    /// The damages without their values: what was damaged.
    pub ways: Vec<String>,
    pub features: Vec<String>,
}

impl Image {
    /// How it was made, in one line.
    pub fn story(&self) -> String {
        if self.made.is_empty() {
            "undamaged".into()
        } else {
            self.made.join("; ")
        }
    }
}
