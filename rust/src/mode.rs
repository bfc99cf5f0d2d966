/// Which blocks a handler takes, and how long a Block option may be.
#[derive(Debug, Clone, Copy, PartialEq, Eq, Hash, Default)]
pub enum Mode {
    /// Answers as coap-lite does. It reads Block options of up to two bytes, so a num up to 4095; a num that it answers can reach 65,535,
    /// and is written modulo 4096.
    Plain,
    /// An upload is its blocks in order. A Block option has up to three bytes, and a num up to 1,048,575, as RFC 7959 has it.
    #[default]
    Strict,
}
