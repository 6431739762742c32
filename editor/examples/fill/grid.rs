//! The grid: which squares have letters, which of these are set, the slots that words go into, and where they cross.

/// Squares of a word, in reading order.
pub type Slot = Vec<usize>;

/// Where a slot crosses another.
#[derive(Clone, Copy)]
pub struct Crossing {
    /// The letter's place in the slot.
    pub here: usize,
    pub other: usize,
    /// The letter's place in the other.
    pub there: usize,
}

#[derive(Clone, Copy, PartialEq, Eq)]
enum Square {
    Block,
    Open,
    /// Open, with a letter that stays.
    Set(u8),
}

pub struct Grid {
    rows: Vec<Vec<Square>>,
    /// By row: the text's line, from 1.
    lines: Vec<usize>,
    slots: Vec<Slot>,
    /// By slot.
    crossings: Vec<Vec<Crossing>>,
}

impl Grid {
    /// A row a line; a dot for an open square, a letter in either case for one that is set, # for a block; spaces between or not.
    pub fn parse(text: &str) -> Result<Grid, String> {
        let (mut rows, mut lines) = (Vec::<Vec<Square>>::new(), Vec::new());
        for (line, number) in text.trim_start_matches('\u{feff}').lines().zip(1..) {
            let row = row(line).map_err(|error| format!("line {number}: {error}"))?;
            let width = rows.first().map_or(row.len(), Vec::len);
            if row.is_empty() {
                continue;
            }
            if row.len() != width {
                return Err(format!("line {number}: the row has {} squares, and the first has {width}", row.len()));
            }
            rows.push(row);
            lines.push(number);
        }
        let slots = slots(&rows);
        if slots.is_empty() {
            return Err("the grid has no room for a word".into());
        }
        let crossings = slots.iter().map(|slot| crossings(slot, &slots)).collect();
        Ok(Grid { rows, lines, slots, crossings })
    }

    pub fn slots(&self) -> &[Slot] {
        &self.slots
    }

    pub fn crossings(&self, slot: usize) -> &[Crossing] {
        &self.crossings[slot]
    }

    pub fn squares(&self) -> usize {
        self.rows.iter().map(Vec::len).sum()
    }

    /// By square: the letter that is set, # for none.
    pub fn set(&self) -> Vec<u8> {
        let letter = |square: &Square| if let Square::Set(letter) = square { *letter } else { b'#' };
        self.rows.iter().flatten().map(letter).collect()
    }

    /// The letters that are set in a slot, with their places in it.
    pub fn set_in(&self, slot: &Slot) -> Vec<(usize, u8)> {
        let set = self.set();
        slot.iter().map(|&square| set[square]).enumerate().filter(|(_, letter)| *letter != b'#').collect()
    }

    /// Which slot it is: its line in the text, its letters and dots, its direction.
    pub fn describe(&self, slot: &Slot) -> (usize, String) {
        let (set, width) = (self.set(), self.rows[0].len());
        let square = |letter: u8| if letter == b'#' { '.' } else { char::from(letter.to_ascii_uppercase()) };
        let letters: String = slot.iter().map(|&at| square(set[at])).collect();
        let direction = if slot[1] == slot[0] + 1 { "across" } else { "down" };
        (self.lines[slot[0] / width], format!("`{letters}` {direction}"))
    }

    /// The grid with a letter in each open square, as text.
    pub fn show(&self, letters: &[u8]) -> String {
        let mut text = String::new();
        let mut letters = letters.iter();
        for row in &self.rows {
            for square in row {
                let letter = char::from(*letters.next().expect("a letter for each square"));
                text.push(if *square == Square::Block { '#' } else { letter.to_ascii_uppercase() });
                text.push(' ');
            }
            text.truncate(text.trim_end().len());
            text.push('\n');
        }
        text
    }
}

fn row(line: &str) -> Result<Vec<Square>, String> {
    let square = |square: char| match square {
        '.' => Ok(Square::Open),
        '#' => Ok(Square::Block),
        'a'..='z' | 'A'..='Z' => Ok(Square::Set(square.to_ascii_lowercase() as u8)),
        _ => Err(format!("`{square}` is no square: a dot is an open one, a letter is one that is set, # is a block")),
    };
    line.chars().filter(|square| !square.is_whitespace()).map(square).collect()
}

/// The rows' words, then the columns'. A square that stands alone in its row or column is no word there.
fn slots(rows: &[Vec<Square>]) -> Vec<Slot> {
    let width = rows.first().map_or(0, Vec::len);
    let across = (0..rows.len()).map(|row| (0..width).map(|column| row * width + column).collect());
    let down = (0..width).map(|column| (0..rows.len()).map(|row| row * width + column).collect());
    let lines: Vec<Vec<usize>> = across.chain(down).collect();
    let is_open = |square: &usize| rows[square / width][square % width] != Square::Block;
    let slots = lines.iter().flat_map(|line| line.split(|square| !is_open(square)));
    slots.filter(|slot| slot.len() > 1).map(<[usize]>::to_vec).collect()
}

fn crossings(slot: &Slot, slots: &[Slot]) -> Vec<Crossing> {
    let mut found = Vec::new();
    for (other, squares) in slots.iter().enumerate().filter(|(_, squares)| *squares != slot) {
        for (there, square) in squares.iter().enumerate() {
            let here = slot.iter().position(|own| own == square);
            found.extend(here.map(|here| Crossing { here, other, there }));
        }
    }
    found
}
