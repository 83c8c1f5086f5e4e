//! What was compared of each entry, and the table that a run ends with.

/// One entry: its calls by what was wanted of them, and how many answered otherwise.
pub struct Row {
    name: &'static str,
    valid: usize,
    /// None where no call of the entry can be refused.
    refused: Option<usize>,
    differences: usize,
    /// What the calls were to cover and left out.
    faults: Vec<String>,
}

impl Row {
    pub fn new(name: &'static str) -> Self {
        Row { name, valid: 0, refused: Some(0), differences: 0, faults: Vec::new() }
    }

    pub fn never_refused(name: &'static str) -> Self {
        Row { refused: None, ..Row::new(name) }
    }

    /// Counts a valid call; its answer, where that is the one wanted.
    pub fn valid<T>(&mut self, found: Result<T, String>) -> Option<T> {
        self.valid += 1;
        self.same(found)
    }

    /// Counts a damaged call.
    pub fn refused<T>(&mut self, found: Result<T, String>) -> Option<T> {
        *self.refused.as_mut().expect("an entry that refuses calls") += 1;
        self.same(found)
    }

    /// Counts a call by the reply that is wanted of it.
    pub fn called<T>(&mut self, reply: u8, found: Result<T, String>) -> Option<T> {
        if reply == 0 {
            return self.valid(found);
        }
        self.refused(found)
    }

    /// Counts a difference, if this is one. The first is printed, with its whole input.
    pub fn same<T>(&mut self, found: Result<T, String>) -> Option<T> {
        if let Err(text) = &found {
            if self.differences == 0 {
                println!("{}: the first difference\n{text}", self.name);
            }
            self.differences += 1;
        }
        found.ok()
    }

    /// Calls made by hand, which are counted apart.
    pub fn listed(&mut self, found: Result<usize, String>) {
        if let Some(cases) = self.same(found) {
            println!("{}: {cases} listed cases equal", self.name);
        }
    }

    /// No call may change what is lent for reading.
    pub fn unchanged(&mut self, held: bool) {
        let text = "a call changed what was lent for reading".to_string();
        self.same(held.then_some(()).ok_or(text));
    }

    /// Whether the calls covered all that they were to.
    pub fn covered(&mut self, found: Result<(), String>) {
        self.faults.extend(found.err());
    }

    fn faults(&self) -> Vec<String> {
        let mut all = self.faults.clone();
        let nothing = [
            (self.valid == 0, "no valid call was compared"),
            (self.refused == Some(0), "no refused call was compared"),
            (self.differences > 0, "the sides differ"),
        ];
        let held = nothing.iter().filter(|fault| fault.0);
        all.extend(held.map(|fault| format!("{}: {}", self.name, fault.1)));
        all
    }
}

/// The entries that the header declares, in its order.
fn declared(header: &str) -> Vec<&str> {
    let behind = header.split("uint8_t hencouch_").skip(1);
    behind.map(|rest| rest.split('(').next().unwrap_or("").trim()).collect()
}

/// Prints the table, a row an entry in the order of the header and then what is no entry, and
/// answers all that is wrong: a difference, a count of 0, something not covered, an entry without a
/// row.
pub fn table(rows: &[Row], header: &str) -> Vec<String> {
    let entries = declared(header);
    let mut sorted: Vec<&Row> = rows.iter().collect();
    let place = |row: &&Row| entries.iter().position(|name| *name == row.name);
    sorted.sort_by_key(|row| place(row).unwrap_or(entries.len()));
    let titles = ("valid calls", "refused calls", "differences");
    println!("{:<27} {:>13} {:>13} {:>11}", "entry", titles.0, titles.1, titles.2);
    for row in &sorted {
        let refused = row.refused.map_or("none can be".to_string(), grouped);
        let (valid, differences) = (grouped(row.valid), grouped(row.differences));
        println!("{:<27} {valid:>13} {refused:>13} {differences:>11}", row.name);
    }
    let sum = |of: fn(&Row) -> usize| grouped(rows.iter().map(of).sum());
    let (valid, refused) = (sum(|row| row.valid), sum(|row| row.refused.unwrap_or(0)));
    let differences = sum(|row| row.differences);
    println!("{:<27} {valid:>13} {refused:>13} {differences:>11}", "all");
    let mut faults: Vec<String> = sorted.iter().flat_map(|row| row.faults()).collect();
    for name in entries.iter().filter(|name| !rows.iter().any(|row| row.name == **name)) {
        faults.push(format!("{name}: the header declares it, and nothing was compared"));
    }
    faults
}

/// A count with a comma before every three digits.
fn grouped(count: usize) -> String {
    let digits = count.to_string();
    let (first, rest) = digits.split_at((digits.len() - 1) % 3 + 1);
    let groups = rest.as_bytes().chunks(3).map(|three| String::from_utf8_lossy(three));
    groups.fold(first.to_string(), |text, three| format!("{text},{three}"))
}
