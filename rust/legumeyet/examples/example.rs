//! Writes a number as German, Hindi and Arabic readers write it.

use legumeyet::{DecimalFormatter, Error};

fn main() -> Result<(), Error> {
    for tag in ["de", "hi", "ar-EG"] {
        println!("{}", DecimalFormatter::new(tag)?.format("1234567.891")?);
    }
    Ok(())
}
