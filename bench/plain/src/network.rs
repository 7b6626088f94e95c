//! Networks of balancers, as `renamer show` prints them.

pub enum End {
    Balancer(usize),
    Exit(usize),
}

/// A network: the line that heads a text on it, and where each wire ends.
pub struct Network {
    pub heading: String,
    pub entries: usize,
    pub width: usize,
    pub ends: Vec<End>,
}

impl Network {
    /// Reads a network, or nothing if the text shows none.
    pub fn read(text: &str) -> Option<Network> {
        let (heading, wires) = text.split_once('\n')?;
        let balancers: usize = heading.split(' ').nth(5)?.parse().ok()?;
        let ends: Vec<End> = wires.lines().map_while(end_of).collect();
        let width = ends.iter().filter(|end| matches!(end, End::Exit(_))).count();
        let entries = ends.len().checked_sub(2 * balancers)?;
        Some(Network { heading: format!("{heading}\n"), entries, width, ends })
    }

    pub fn balancers(&self) -> usize {
        (self.ends.len() - self.entries) / 2
    }
}

/// Where a wire ends, of which a line says so.
fn end_of(line: &str) -> Option<End> {
    let (place, number) = line.strip_prefix("wire ")?.split_once(' ')?.1.split_once(' ')?;
    let number = number.parse().ok()?;
    Some(if place == "exit" { End::Exit(number) } else { End::Balancer(number) })
}
