//! The old form of images, in which if (0x52) and try (0x53) were commands of their own, with nothing but three commands in
//! them, and there were no procedures. All else is as in today's form, and so an image of it has a tree.

use crate::decode::{program_of, Form, Read, Reader};
use crate::tree::Program;

const OLD: Form = Form {
    commands: "a command of the old form: tag 0x50 to 0x57",
    procedures: false,
    guarded,
};

/// The tree of an image of the old form.
pub fn program(image: &[u8]) -> Read<Program> {
    program_of(image, &OLD)
}

fn guarded<'a>(reader: &mut Reader<'a>) -> Read<Option<(bool, Reader<'a>)>> {
    match reader.tag() {
        Some(0x52) => Ok(Some((false, reader.field(0x52, "if")?))),
        Some(0x53) => Ok(Some((true, reader.field(0x53, "try")?))),
        _ => Ok(None),
    }
}
