//! Prints the listing of the interface in the file named on the command line:
//! `cargo run --example listing -- ../../examples/log/log.witx`

fn main() -> Result<(), Box<dyn std::error::Error>> {
    let name = std::env::args().nth(1).ok_or("usage: listing FILE")?;
    let text = std::fs::read_to_string(name)?;
    print!(
        "{}",
        witx_proved::adapt(&["/log.witx"], &[("/log.witx", &text)])?
    );
    Ok(())
}
