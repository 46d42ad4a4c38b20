//! Files in hex, for the reports.

/// At most so many bytes of a file are printed.
const PRINTED: usize = 65_536;

/// The bytes in hex with their places, 16 a line.
pub fn dump(file: &[u8]) -> String {
    let mut text = format!("{} bytes\n", file.len());
    for (line, bytes) in file[..file.len().min(PRINTED)].chunks(16).enumerate() {
        let hex: Vec<String> = bytes.iter().map(|byte| format!("{byte:02x}")).collect();
        let shown = |byte: &u8| if (0x20..0x7f).contains(byte) { *byte as char } else { '.' };
        let plain: String = bytes.iter().map(shown).collect();
        text += &format!("{:08x}  {:47}  {plain}\n", line * 16, hex.join(" "));
    }
    text
}
