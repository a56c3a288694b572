//! Lines of a table of what was reached.

/// A line of a table: what gave one status, or some of it.
pub struct Line<Reached> {
    pub name: &'static str,
    pub status: u32,
    pub includes: fn(&Reached) -> bool,
}

/// A line for a status.
pub const fn whole<Reached>(name: &'static str, status: u32) -> Line<Reached> {
    part(name, status, |_| true)
}

/// A line for some of a status; its name starts with two spaces.
pub const fn part<Reached>(
    name: &'static str,
    status: u32,
    includes: fn(&Reached) -> bool,
) -> Line<Reached> {
    Line {
        name,
        status,
        includes,
    }
}

impl<Reached> Line<Reached> {
    /// Whether what was given a status counts here.
    pub fn has(&self, status: u32, reached: &Reached) -> bool {
        status == self.status && (self.includes)(reached)
    }
}

/// The lines with fewer than so many, each with the name of its status and its count.
pub fn rare_lines<Reached>(lines: &[Line<Reached>], counts: &[u64], demanded: u64) -> Vec<String> {
    let mut list = Vec::new();
    let mut status_name = "";
    for (line, &count) in lines.iter().zip(counts) {
        let part = line.name.strip_prefix(' ').unwrap_or("");
        if part.is_empty() {
            status_name = line.name;
        }
        if count < demanded {
            list.push(format!("{status_name}{part}: {count} times"));
        }
    }
    list
}
