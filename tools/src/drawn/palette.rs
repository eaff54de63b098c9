//! A colour for each site.

/// A light one to fill with, and a dark one of the same hue around it.
#[derive(Clone, Copy, Debug, PartialEq, Eq)]
pub struct Colour {
    pub fill: &'static str,
    pub edge: &'static str,
}

const COLOURS: [Colour; 8] = [
    Colour { fill: "#cfe2f5", edge: "#2f6299" },
    Colour { fill: "#fde0bf", edge: "#a8621b" },
    Colour { fill: "#d3ecc9", edge: "#42772e" },
    Colour { fill: "#f8d0d6", edge: "#a03a4c" },
    Colour { fill: "#e2d8f2", edge: "#664a99" },
    Colour { fill: "#fbf2b4", edge: "#857415" },
    Colour { fill: "#c9eeea", edge: "#1f7870" },
    Colour { fill: "#e3ded6", edge: "#655c4c" },
];

pub fn of_site(site: usize) -> Colour {
    COLOURS[site % COLOURS.len()]
}
