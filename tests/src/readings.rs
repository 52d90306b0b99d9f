// What is read of a stored set of files: the lines of an accepted plan, its activities by place, or the refusal.

use crate::calls::no;
use crate::reading::read;

// The set has each file behind a line with its length in bytes.
pub fn readings(set: &[u8]) -> Option<Vec<u8>> {
    let mut rest = set;
    let mut out = Vec::new();
    while !rest.is_empty() {
        let end = rest.iter().position(|&byte| byte == b'\n')?;
        let length: usize = std::str::from_utf8(&rest[..end]).ok()?.parse().ok()?;
        let file = rest.get(end + 1..end + 1 + length)?;
        rest = &rest[end + 1 + length..];
        match read(file) {
            Err(refusal) => out.extend(format!("{}\n", no(refusal)).bytes()),
            Ok(plan) => {
                let lines: Vec<&[u8]> = file.split_inclusive(|&byte| byte == b'\n').collect();
                out.extend(lines[0]);
                for line in plan.order() {
                    out.extend(lines[1 + line]);
                }
            }
        }
    }
    Some(out)
}
