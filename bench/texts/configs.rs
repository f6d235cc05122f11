//! Configurations of so many bytes.

fn filled(mut text: String, bytes: usize, more: impl Fn(usize) -> String) -> String {
    let mut count = 0;
    loop {
        let next = more(count);
        if text.len() + next.len() > bytes {
            break;
        }
        text.push_str(&next);
        count += 1;
    }
    let rest = bytes - text.len();
    text.extend(std::iter::repeat('#').take(rest));
    text
}

/// Accepted: as many tables as there may be, and comments.
pub fn accepted(bytes: usize) -> String {
    let mut text = String::from("[publisher]\nid = \"u8:5\"\n");
    for set in 0..8 {
        text.push_str(&format!("[[dataset]]\nname = \"d{set}\"\n"));
        for field in 0..64 {
            text.push_str(&format!("[[dataset.field]]\nname = \"f{field}\"\nkind = \"UInt32\"\n"));
        }
    }
    filled(text, bytes, |line| format!("# comment {line}\n"))
}

/// Refused as TooMany: nothing but data sets.
pub fn many_tables(bytes: usize) -> String {
    filled(String::from("[publisher]\nid = \"u8:5\"\n"), bytes, |set| format!("[[dataset]]\nname = \"d{set}\"\n"))
}

/// Refused as UnknownKey, at the document: as many keys as there is room for.
pub fn many_keys(bytes: usize) -> String {
    filled(String::new(), bytes, |key| format!("k{key} = {key}\n"))
}

/// A data set of so many UInt32 fields, a group with so many writers and a read group with so many readers.
pub fn session(fields: usize, writers: usize) -> String {
    let mut text = String::from("[publisher]\nid = \"u8:5\"\n[[dataset]]\nname = \"demo\"\n");
    for field in 0..fields {
        text.push_str(&format!("[[dataset.field]]\nname = \"f{field}\"\nkind = \"UInt32\"\n"));
    }
    text.push_str("[[group]]\nname = \"g1\"\nid = 1\ninterval = 100\n");
    for writer in 1..=writers {
        text.push_str(&format!("[[group.writer]]\nname = \"w{writer}\"\nid = {writer}\ndataset = \"demo\"\n"));
    }
    text.push_str("[[readgroup]]\nname = \"rg1\"\npublisher = \"u8:5\"\ngroup = 1\n");
    for reader in 1..=writers {
        text.push_str(&format!("[[readgroup.reader]]\nname = \"r{reader}\"\nwriter = {reader}\ndataset = \"demo\"\n"));
    }
    text
}
