//! Whether Unicode 18 assigns a character to a code.

#[derive(Debug, Clone, Copy, PartialEq, Eq)]
pub enum GeneralCategory {
    Assigned,
    Unassigned,
}

impl GeneralCategory {
    pub fn for_char(c: char) -> GeneralCategory {
        // Behind an odd number of borders none is assigned.
        match super::unassigned::BORDERS.partition_point(|border| *border <= c as u32) % 2 {
            0 => GeneralCategory::Assigned,
            _ => GeneralCategory::Unassigned,
        }
    }
}
