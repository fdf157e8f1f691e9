//! Files as one bundle: before each text a line with its path.

use crate::error::{Error, Status};

const HEADER: &str = ";;;; file ";

/// The bundle of the files. A text that doesn't end in a line feed gets one, so that the next header begins a
/// line. What would be read otherwise is refused: a path that doesn't end where its line does, and a text with
/// a line that begins as a header does.
pub(crate) fn bundle_of(files: &[(&str, &str)]) -> Result<Vec<u8>, Error> {
    let mut bundle = String::new();
    for (path, text) in files {
        if path.contains('\n') || path.ends_with('\r') {
            return Err(no_bundle(path, "a path ends with its line"));
        }
        if text.split('\n').any(|line| line.starts_with(HEADER)) {
            return Err(no_bundle(
                path,
                "a line of the file begins as a header does",
            ));
        }
        bundle.push_str(HEADER);
        bundle.push_str(path);
        bundle.push('\n');
        bundle.push_str(text);
        if !text.is_empty() && !text.ends_with('\n') {
            bundle.push('\n');
        }
    }
    Ok(bundle.into_bytes())
}

fn no_bundle(path: &str, reason: &str) -> Error {
    Error::new(Status::NoBundle, format!("witx: {path:?}: {reason}\n"))
}
