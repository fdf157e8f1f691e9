//! The proved program `witx` as safe calls, over files in memory.
//!
//! ```
//! let text = "(typename $size u32)";
//! let listing = witx_proved::adapt(&["/a.witx"], &[("/a.witx", text)])?;
//! assert_eq!(listing, "typename size size 4 align 4\n");
//! # Ok::<(), witx_proved::Error>(())
//! ```
//!
//! Each call is named after its command, and gives the text that the program writes. Files are pairs of a path
//! and a text; they use one another by their paths. What is refused is an [`Error`] with the status and the
//! text that the program tells. [`run`] takes words and a bundle as the program does, for anything else.
//!
//! What the program answers is proved down to the linked library's one call. That this crate hands it over
//! unchanged isn't, nor that the declarations here are the library's: tests hold its answers against the
//! program's.
#![warn(missing_docs)]

mod bundle;
mod error;
mod heap;
mod library;

pub use error::{Error, Status};
pub use library::{run, Outcome};

use bundle::bundle_of;

/// A page in Markdown, and what it lacks.
#[derive(Debug, Clone, PartialEq, Eq)]
pub struct Page {
    /// The page.
    pub text: String,
    /// A line for each link that leads nowhere: ``witx: link `x` not found``.
    pub notes: String,
}

/// The listing of the document that the files mean: the layouts of its types, and of each function its
/// signature and the events of its caller and of its callee.
///
/// # Errors
/// What the program refuses, with its text: the first file, declaration, type or function at fault.
pub fn adapt(paths: &[&str], files: &[(&str, &str)]) -> Result<String, Error> {
    text_of("adapt", paths, files)
}

/// The document that the files mean, printed.
///
/// # Errors
/// What the program refuses, with its text.
pub fn print(paths: &[&str], files: &[(&str, &str)]) -> Result<String, Error> {
    text_of("print", paths, files)
}

/// The layouts of the document's types, with the offsets of their parts.
///
/// # Errors
/// What the program refuses, with its text.
pub fn layouts(paths: &[&str], files: &[(&str, &str)]) -> Result<String, Error> {
    text_of("layouts", paths, files)
}

/// The page of the document that the files mean.
///
/// # Errors
/// What the program refuses, with its text.
pub fn docs(paths: &[&str], files: &[(&str, &str)]) -> Result<Page, Error> {
    let (text, notes) = texts_of(&[&["docs"], paths].concat(), files)?;
    Ok(Page { text, notes })
}

/// How modules of the document of the file `old` stand to modules of that of `new`: pairs of a new name and an
/// old one.
///
/// # Errors
/// What the program refuses, with its text.
pub fn polyfill(
    new: &str,
    old: &str,
    modules: &[(&str, &str)],
    files: &[(&str, &str)],
) -> Result<String, Error> {
    text_of("polyfill", &with_modules(new, old, modules), files)
}

/// Which words of a call of the functions of `old` go where in those of `new`, or why there is no shim, for
/// pairs of modules as of [`polyfill`].
///
/// # Errors
/// What the program refuses, with its text.
pub fn shim(
    new: &str,
    old: &str,
    modules: &[(&str, &str)],
    files: &[(&str, &str)],
) -> Result<String, Error> {
    text_of("shim", &with_modules(new, old, modules), files)
}

/// For each function of the document the verdict on the traces that the file `listing` gives it: `yes`, which
/// says that they are faithful, or `no` with the first doubt.
///
/// # Errors
/// What the program refuses, with its text.
pub fn verify(listing: &str, paths: &[&str], files: &[(&str, &str)]) -> Result<String, Error> {
    text_of("verify", &[&[listing], paths].concat(), files)
}

/// One call of a function of the document over a memory of bytes, with the arguments and the reply that the
/// lines of the file `values` give.
///
/// # Errors
/// What the program refuses, with its text.
pub fn invoke(
    module: &str,
    func: &str,
    values: &str,
    paths: &[&str],
    files: &[(&str, &str)],
) -> Result<String, Error> {
    text_of("invoke", &[&[module, func, values], paths].concat(), files)
}

/// Which imports of a WebAssembly module, listed in the file `list`, are missing in the document or different.
///
/// # Errors
/// What the program refuses, with its text.
pub fn imports(list: &str, paths: &[&str], files: &[(&str, &str)]) -> Result<String, Error> {
    text_of("imports", &[&[list], paths].concat(), files)
}

/// The summary of a document of so many functions, from 1 to 4096, of the program's own making.
///
/// # Errors
/// Another number, which has no form, with the usage as its text.
pub fn sample(functions: usize) -> Result<String, Error> {
    text_of("sample", &[&functions.to_string()], &[])
}

/// The words of two files and of the modules in them.
fn with_modules<'a>(new: &'a str, old: &'a str, modules: &[(&'a str, &'a str)]) -> Vec<&'a str> {
    let mut words = vec![new, old];
    for (new, old) in modules {
        words.extend([*new, *old]);
    }
    words
}

/// What a command writes on standard output.
fn text_of(command: &str, words: &[&str], files: &[(&str, &str)]) -> Result<String, Error> {
    Ok(texts_of(&[&[command], words].concat(), files)?.0)
}

/// What it writes on standard output and on standard error, where it is done.
fn texts_of(words: &[&str], files: &[(&str, &str)]) -> Result<(String, String), Error> {
    let Outcome { status, out, err } = run(words, &bundle_of(files)?);
    let told = error::text(err);
    match Status::of(status) {
        None => Ok((error::text(out), told)),
        Some(status) => Err(Error::new(status, told)),
    }
}
