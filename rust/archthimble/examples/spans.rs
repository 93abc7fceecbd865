//! Where 1,000 bytes from offset 900 on of a stream lie.
use archthimble::{Reader, Refusal};
use std::io::SeekFrom;

fn main() -> Result<(), Refusal> {
    let list = [0x11, 0x02, 0x0a, 0x11, 0x01, 0xfe, 0x01, 0x03, 0x11, 0x02, 0x05, 0x00];
    let mut reader = Reader::open(&list, 512, 4000)?;
    reader.seek(&list, SeekFrom::Start(900))?;
    for span in reader.read(&list, 1000, &mut [0; 9])? {
        println!("{:?}, {} bytes", span.place, span.length);
    }
    Ok(())
}
