//! A spreadsheet's rows taken apart.

/// One row as its fields, quotes taken away.
pub fn fields(line: &str) -> Vec<String> {
    let (mut found, mut field, mut within) = (Vec::new(), String::new(), false);
    let mut letters = line.chars().peekable();
    while let Some(letter) = letters.next() {
        match letter {
            '"' if within && letters.peek() == Some(&'"') => {
                letters.next();
                field.push('"');
            }
            '"' => within = !within,
            ',' if !within => found.push(std::mem::take(&mut field)),
            _ => field.push(letter),
        }
    }
    found.push(field);
    found
}

/// The rows below the heading, each field by the name of its column.
pub fn rows(text: &str) -> Vec<Vec<(String, String)>> {
    let mut lines = text.lines();
    let heading = fields(lines.next().unwrap_or_default());
    lines.map(|line| heading.iter().cloned().zip(fields(line)).collect()).collect()
}

/// A field of a row.
pub fn field<'a>(row: &'a [(String, String)], name: &str) -> &'a str {
    let found = row.iter().find(|(column, _)| column == name);
    found.map(|(_, value)| value.as_str()).unwrap_or_else(|| panic!("no column {name}"))
}
