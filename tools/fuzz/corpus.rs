//! corpus LIST FOLDER
//! Writes each sheet of the stored list as an input of fuzz.c: three bytes that say how long the buffer is and where it stands, and the sheet.

fn main() -> std::io::Result<()> {
    let args: Vec<String> = std::env::args().skip(1).collect();
    let [list, folder] = &args[..] else {
        eprintln!("usage: corpus LIST FOLDER");
        std::process::exit(2)
    };
    let list = std::fs::read(list)?;
    std::fs::create_dir_all(folder)?;
    let mut rest = &list[4..];
    for i in 0.. {
        let Some((head, behind)) = rest.split_first_chunk::<4>() else { return Ok(()) };
        let (sheet, behind) = behind.split_at(u32::from_le_bytes(*head) as usize);
        let control = [(i % 16) as u8, (i / 16 % 256) as u8, 0];
        std::fs::write(format!("{folder}/{i:04}"), [&control, sheet].concat())?;
        let (report, behind) = behind[1..].split_first_chunk::<4>().expect("a report's length");
        rest = &behind[u32::from_le_bytes(*report) as usize..];
    }
    Ok(())
}
