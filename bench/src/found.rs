//! What a library found, as bytes in one layout for all libraries, so that `run` can compare them.

#[derive(Default)]
pub struct Found(pub Vec<u8>);

impl Found {
    pub fn bytes(&mut self, bytes: &[u8]) {
        self.0.extend_from_slice(bytes);
    }

    /// Appends the five fields of a header.
    pub fn header(&mut self, length: u32, kind: u16, flags: u16, sequence_number: u32, port_number: u32) {
        self.bytes(&length.to_be_bytes());
        self.bytes(&kind.to_be_bytes());
        self.bytes(&flags.to_be_bytes());
        self.bytes(&sequence_number.to_be_bytes());
        self.bytes(&port_number.to_be_bytes());
    }

    /// Appends the kind of an attribute or the type of a message (0 for a frame), and the offset and the size of the
    /// value, of the payload or of the frame. Offsets are those in the input.
    pub fn item(&mut self, kind: u16, offset: usize, size: usize) {
        self.bytes(&kind.to_be_bytes());
        self.bytes(&(offset as u32).to_be_bytes());
        self.bytes(&(size as u32).to_be_bytes());
    }

    /// Appends 1 if the input is rejected, and 0 otherwise.
    pub fn rejected(&mut self, is_rejected: bool) {
        self.bytes(&[is_rejected as u8]);
    }
}
