//! The workloads of the port's `areas.rt`, over a string for each line, as text areas of Rust keep them.

/// A text, and the number of the cursor's line and how many characters stand before it there.
struct Area {
    lines: Vec<String>,
    row: usize,
    column: usize,
}

impl Area {
    fn new(lines: usize, letters: usize) -> Area {
        let mut lines = vec!["a".repeat(letters); lines];
        lines.push(String::new());
        Area { lines, row: 0, column: 0 }
    }

    /// The cursor's line, and the byte at which the cursor stands in it.
    fn place(&mut self) -> (&mut String, usize) {
        let line = &mut self.lines[self.row];
        let at = line.char_indices().nth(self.column).map_or(line.len(), |(at, _)| at);
        (line, at)
    }

    fn insert(&mut self, c: char) {
        let (line, at) = self.place();
        line.insert(at, c);
        self.column += 1;
    }

    fn feed(&mut self) {
        let (line, at) = self.place();
        let rest = line.split_off(at);
        self.row += 1;
        self.lines.insert(self.row, rest);
        self.column = 0;
    }

    /// The cursor moves to a line, and to its end if it has fewer characters than stood before it.
    fn go(&mut self, row: usize) {
        self.row = row;
        self.column = self.column.min(self.lines[row].chars().count());
    }

    /// A sum of the text's length and the cursor's place.
    fn sum(&self) -> u64 {
        let bytes: usize = self.lines.iter().map(String::len).sum();
        (bytes + self.lines.len() - 1 + self.row + self.column) as u64
    }
}

/// Runs the workload of this name, if it is one.
pub fn run(name: &str, rounds: u64) -> Option<(u64, u64)> {
    let area = match name {
        "area_type" => {
            let mut area = Area::new(125_000, 79);
            for _ in 0..rounds {
                area.insert('x');
            }
            area
        }
        "area_feed" => {
            let mut area = Area::new(125_000, 79);
            (area.row, area.column) = (62_500, 40);
            for _ in 0..rounds {
                area.feed();
            }
            area
        }
        "area_up" => {
            let mut area = Area::new(10, 1_000_000);
            (area.row, area.column) = (1, 1_000_000);
            for _ in 0..rounds {
                area.go(0);
                area.go(1);
            }
            area
        }
        _ => return None,
    };
    Some((rounds, area.sum()))
}
