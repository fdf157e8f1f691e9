//! Each call over the repository's worked examples, and what is refused.

use std::thread;
use witx_proved::{Error, Status};

const LOG: &str = include_str!("../../../examples/log/log.witx");
const LISTING: &str = include_str!("../../../examples/log/listing.txt");
const WRONG: &str = include_str!("../../../examples/log/wrong.txt");
const VALUES: &str = include_str!("../../../examples/log/log.values");
const TYPES: &str = include_str!("../../../examples/files/types.witx");
const FILES: &str = include_str!("../../../examples/files/files.witx");
const OLDER: &str = include_str!("../../../examples/files/older.witx");

const LOG_FILES: &[(&str, &str)] = &[("/log.witx", LOG)];
const TWO_FILES: &[(&str, &str)] = &[("/types.witx", TYPES), ("/files.witx", FILES)];
const THREE_FILES: &[(&str, &str)] = &[
    ("/types.witx", TYPES),
    ("/older.witx", OLDER),
    ("/files.witx", FILES),
];

/// A file of the folder `examples`, which `tools/check-examples` holds against what the program writes.
macro_rules! example {
    ($name:literal) => {
        include_str!(concat!("../../../examples/", $name))
    };
}

#[test]
fn documents_are_adapted_printed_and_laid_out() -> Result<(), Error> {
    assert_eq!(witx_proved::adapt(&["/log.witx"], LOG_FILES)?, LISTING);
    assert_eq!(
        witx_proved::adapt(&["/files.witx"], TWO_FILES)?,
        example!("files/listing.txt")
    );
    assert_eq!(
        witx_proved::print(&["/files.witx"], TWO_FILES)?,
        example!("files/printed.witx")
    );
    assert_eq!(
        witx_proved::layouts(&["/files.witx"], TWO_FILES)?,
        example!("files/layouts.txt")
    );
    assert_eq!(witx_proved::adapt(&[], &[])?, "");
    Ok(())
}

#[test]
fn pages_are_written() -> Result<(), Error> {
    let page = witx_proved::docs(&["/files.witx"], TWO_FILES)?;
    assert_eq!(page.text, example!("files/page.md"));
    assert_eq!(page.notes, "");
    let text = ";;; See `gone`.\n(typename $t u8)\n";
    let page = witx_proved::docs(&["/t.witx"], &[("/t.witx", text)])?;
    assert_eq!(page.notes, "witx: link `gone` not found\n");
    Ok(())
}

#[test]
fn interfaces_are_compared() -> Result<(), Error> {
    let modules = &[("files", "files")];
    assert_eq!(
        witx_proved::polyfill("/files.witx", "/older.witx", modules, THREE_FILES)?,
        example!("files/report.md")
    );
    assert_eq!(
        witx_proved::shim("/files.witx", "/older.witx", modules, THREE_FILES)?,
        example!("files/shim.txt")
    );
    Ok(())
}

#[test]
fn traces_are_verified_and_calls_made() -> Result<(), Error> {
    let files = &[
        ("/log.witx", LOG),
        ("/listing.txt", LISTING),
        ("/wrong.txt", WRONG),
        ("/log.values", VALUES),
    ];
    assert_eq!(
        witx_proved::verify("/listing.txt", &["/log.witx"], files)?,
        example!("log/verdict.txt")
    );
    assert_eq!(
        witx_proved::verify("/wrong.txt", &["/log.witx"], files)?,
        example!("log/doubt.txt")
    );
    assert_eq!(
        witx_proved::invoke("log", "write", "/log.values", &["/log.witx"], files)?,
        example!("log/call.txt")
    );
    Ok(())
}

#[test]
fn imports_are_held_against_a_document() -> Result<(), Error> {
    let right = "(import \"log\" \"write\" (func (param i32 i32 i32) (result i32)))\n";
    let files = &[("/log.witx", LOG), ("/imports.txt", right)];
    assert_eq!(
        witx_proved::imports("/imports.txt", &["/log.witx"], files)?,
        ""
    );
    let wrong = "(import \"log\" \"read\" (func))\n";
    let files = &[("/log.witx", LOG), ("/imports.txt", wrong)];
    assert_eq!(
        witx_proved::imports("/imports.txt", &["/log.witx"], files)?,
        "missing \"log\" \"read\"\n"
    );
    Ok(())
}

#[test]
fn samples_are_summed_up() -> Result<(), Error> {
    assert_eq!(
        witx_proved::sample(1)?,
        "typenames 3\nfunctions 1\nevents 42\nbytes 42\n"
    );
    assert_eq!(
        witx_proved::sample(0).map_err(|error| error.status()),
        Err(Status::NoForm)
    );
    Ok(())
}

#[test]
fn a_refusal_has_its_status_and_its_text() {
    let error = witx_proved::adapt(&["/missing.witx"], LOG_FILES).unwrap_err();
    assert_eq!(error.status(), Status::Refused);
    assert_eq!(
        error.text(),
        "witx: with file \"/missing.witx\": file not found\n"
    );
    assert_eq!(
        error.to_string(),
        "witx: with file \"/missing.witx\": file not found"
    );
    let boxed: Box<dyn std::error::Error + Send + Sync> = error.into();
    assert!(boxed.downcast_ref::<Error>().is_some());
}

#[test]
fn words_without_a_form_have_the_usage_told() {
    for words in [
        &[][..],
        &[""],
        &["adopt"],
        &["adapt\0/log.witx"],
        &["sample", "0"],
    ] {
        let outcome = witx_proved::run(words, b"");
        assert_eq!(outcome.status, 2, "{words:?}");
        assert!(outcome.err.starts_with(b"usage: witx "));
    }
}

#[test]
fn what_is_no_bundle_is_refused() {
    assert_eq!(
        witx_proved::run(&["adapt", "/log.witx"], LOG.as_bytes()).status,
        6
    );
    assert_eq!(witx_proved::run(&["adapt", "/log.witx"], b"\xff").status, 6);
    let hidden = &[("/a.witx", "(typename $a u8)\n;;;; file /b.witx\n")];
    let error = witx_proved::adapt(&["/a.witx"], hidden).unwrap_err();
    assert_eq!(error.status(), Status::NoBundle);
    let broken = &[("/a\n.witx", "")];
    let error = witx_proved::adapt(&["/a.witx"], broken).unwrap_err();
    assert_eq!(error.status(), Status::NoBundle);
}

/// Its text takes a second call.
#[test]
fn a_long_text_is_whole() -> Result<(), Error> {
    let text: String = (0..9000)
        .map(|n| format!("(typename $t{n} u8)\n"))
        .collect();
    let listing: String = (0..9000)
        .map(|n| format!("typename t{n} size 1 align 1\n"))
        .collect();
    assert!(listing.len() > 1 << 16);
    assert_eq!(
        witx_proved::adapt(&["/t.witx"], &[("/t.witx", &text)])?,
        listing
    );
    Ok(())
}

#[test]
fn calls_run_side_by_side() {
    thread::scope(|scope| {
        for _ in 0..4 {
            scope.spawn(|| {
                for _ in 0..2500 {
                    assert_eq!(
                        witx_proved::adapt(&["/log.witx"], LOG_FILES).as_deref(),
                        Ok(LISTING)
                    );
                }
            });
        }
    });
}
