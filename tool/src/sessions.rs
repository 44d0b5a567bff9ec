//! A session as it comes, as bytes or as text.

use crate::fault::Fault;
use crate::files::Input;
use crate::plans::{at_byte, at_spot, kind, Kind};
use crate::script::{self, Script};
use zenfrosta::Refusal;

pub struct Session {
    input: Input,
    /// The text's spots; nothing where the session came as bytes.
    said: Option<Script>,
}

impl Session {
    pub fn read(path: &str) -> Result<Session, Fault> {
        let input = Input::read(path)?;
        let said = match kind(&input.bytes) {
            Kind::Bytes => None,
            Kind::Sheet => {
                return Err(input.text_fault(
                    0,
                    "a session begins with 'format', 'lane' or a comment; this looks like a sheet",
                ))
            }
            Kind::Page => return Err(input.fault("a settings page, and no session")),
            Kind::Text => Some(script::read(&input)?),
        };
        Ok(Session { input, said })
    }

    pub fn bytes(&self) -> &[u8] {
        self.said.as_ref().map_or(&self.input.bytes, |said| &said.bytes)
    }

    /// The name of its file.
    pub fn name(&self) -> &str {
        &self.input.name
    }

    /// A refusal of a field, told by line and column where the session is a text.
    pub fn fault(&self, refusal: Refusal) -> Fault {
        match &self.said {
            Some(said) => at_spot(&self.input, said, refusal),
            None => at_byte(&self.input, refusal),
        }
    }
}
