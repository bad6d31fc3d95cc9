//! The reading of a text: LF-ended lines and nothing more, key=value in SCOPE's order, an energy after each y (#108).

/// The most bytes of a text.
const MOST_BYTES: usize = 65_536;

/// The most digits of a value, and the greatest value that has so many.
const MOST_DIGITS: usize = 7;
const MOST: u32 = 9_999_999;

/// The greatest value of the first three keys.
const MOST_SMALL: u32 = 255;

/// The greatest count.
const MOST_POINTS: u32 = 1_152;

/// The values of a text; a point is its x and y, in 65,536ths, and its energy.
#[derive(Clone, Debug, PartialEq, Eq)]
pub struct Input {
    pub min_zoom: u8,
    pub max_zoom: u8,
    pub min_points: u8,
    pub radius: u32,
    pub extent: u32,
    pub node_size: u32,
    pub points: Vec<[u32; 3]>,
}

/// The input is not of its form: refusal 12.
#[derive(Clone, Copy, Debug, PartialEq, Eq)]
pub struct NotOfItsForm;

/// Reads a text.
pub fn read(text: &[u8]) -> Result<Input, NotOfItsForm> {
    if text.len() > MOST_BYTES {
        return Err(NotOfItsForm);
    }
    let mut rest = Rest(text);
    let min_zoom = rest.small("min_zoom")?;
    let max_zoom = rest.small("max_zoom")?;
    let min_points = rest.small("min_points")?;
    let radius = rest.value("radius", MOST)?;
    let extent = rest.value("extent", MOST)?;
    let node_size = rest.value("node_size", MOST)?;
    let count = rest.value("count", MOST_POINTS)?;
    let points = (0..count).map(|_| rest.point()).collect::<Result<_, _>>()?;
    rest.end()?;
    Ok(Input { min_zoom, max_zoom, min_points, radius, extent, node_size, points })
}

/// What is still to be read.
struct Rest<'a>(&'a [u8]);

impl Rest<'_> {
    /// The value of the next line, which has this key.
    fn value(&mut self, key: &str, most: u32) -> Result<u32, NotOfItsForm> {
        let end = self.0.iter().position(|byte| *byte == b'\n').ok_or(NotOfItsForm)?;
        let (line, after) = self.0.split_at(end);
        let value = line.strip_prefix(key.as_bytes()).ok_or(NotOfItsForm)?;
        let digits = value.strip_prefix(b"=").ok_or(NotOfItsForm)?;
        let number = decimal(digits)?;
        if number > most {
            return Err(NotOfItsForm);
        }
        self.0 = &after[1..];
        Ok(number)
    }

    /// The same, of one of the first three keys.
    fn small(&mut self, key: &str) -> Result<u8, NotOfItsForm> {
        self.value(key, MOST_SMALL).map(|number| number as u8)
    }

    /// The next three lines, x, y and energy of a point.
    fn point(&mut self) -> Result<[u32; 3], NotOfItsForm> {
        Ok([self.value("x", MOST)?, self.value("y", MOST)?, self.value("wh", MOST)?])
    }

    /// Nothing more.
    fn end(&self) -> Result<(), NotOfItsForm> {
        match self.0 {
            [] => Ok(()),
            _ => Err(NotOfItsForm),
        }
    }
}

/// A decimal number: one to seven digits, the first of them no zero unless it is the only one.
fn decimal(digits: &[u8]) -> Result<u32, NotOfItsForm> {
    match digits {
        [] | [b'0', _, ..] => return Err(NotOfItsForm),
        _ if digits.len() > MOST_DIGITS => return Err(NotOfItsForm),
        _ => (),
    }
    digits.iter().try_fold(0, |number, byte| match byte {
        b'0'..=b'9' => Ok(10 * number + u32::from(byte - b'0')),
        _ => Err(NotOfItsForm),
    })
}
