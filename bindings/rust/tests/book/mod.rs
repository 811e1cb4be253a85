//! The rows of a program of this repository: a call, a text, and what is expected of them.

/// A row.
pub struct Row {
    pub call: String,
    pub text: String,
    pub wanted: String,
}

/// The rows in the file `stdout` of a crate that have this line between the text and what is expected.
pub fn rows(name: &str, line: &str) -> Vec<Row> {
    let path = format!("{}/../../crates/{name}/stdout", env!("CARGO_MANIFEST_DIR"));
    let book = std::fs::read_to_string(path).expect("the rows are in the repository");
    let book = book.strip_prefix("=== ").expect("a row");
    let rows = book.split("\n=== ").filter_map(|row| {
        let (call, row) = row.split_once('\n')?;
        let (text, wanted) = row.rsplit_once(line)?;
        let wanted = wanted.trim_end_matches('\n').to_owned();
        Some(Row { call: call.to_owned(), text: text.to_owned(), wanted })
    });
    rows.collect()
}
