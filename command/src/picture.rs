//! The block map as a picture: a cell for one or more blocks, in rows from the first block on, and a legend.

use std::collections::BTreeMap;
use std::io;
use std::path::Path;

use space_check::{Cell, Kind, Log, Report};

use crate::checked::Checked;
use crate::{files, font};

/// What a block is drawn as, a number in the palette. Of a cell's blocks the highest number from `LEAKED` on decides, else
/// what most owned blocks are.
type Class = u8;

const FREE: Class = 0;
/// The kinds have their own numbers, from 1 on.
const LAST_KIND: Class = Kind::ALL.len() as Class;
const LEAKED: Class = LAST_KIND + 1;
const PROBLEM: Class = LAST_KIND + 2;
const LOST: Class = LAST_KIND + 3;
const TWICE: Class = LAST_KIND + 4;
const CLASSES: usize = TWICE as usize + 1;

/// The other colours of the palette.
const PAPER: u8 = TWICE + 1;
const INK: u8 = TWICE + 2;

/// By class, then paper and ink: calm colours for owners, loud ones for what needs a look.
const PALETTE: [[u8; 3]; CLASSES + 2] = [
    [0xe5, 0xe7, 0xeb],
    [0x1f, 0x29, 0x37],
    [0x1d, 0x4e, 0xd8],
    [0x60, 0xa5, 0xfa],
    [0x0f, 0x76, 0x6e],
    [0x5e, 0xd4, 0xc4],
    [0x6d, 0x28, 0xd9],
    [0xa7, 0x8b, 0xfa],
    [0x15, 0x80, 0x3d],
    [0x86, 0xd9, 0x9c],
    [0x70, 0x1a, 0x75],
    [0xb0, 0x90, 0x90],
    [0xf5, 0x9e, 0x0b],
    [0x92, 0x40, 0x0e],
    [0xdc, 0x26, 0x26],
    [0xff, 0x00, 0xff],
    [0xff, 0xff, 0xff],
    [0x11, 0x18, 0x27],
];

/// The cells' part of the picture is so wide, a multiple of every number of columns.
const GRID: usize = 768;
const MARGIN: usize = 16;
const LINE: usize = font::HEIGHT + 5;
const LEAST_COLUMNS: usize = 16;
const MOST_COLUMNS: usize = 256;
/// Cells of so many points have a gap of one between them.
const GAP_FROM: usize = 6;

/// How blocks are laid out in cells.
#[derive(Debug, PartialEq, Eq)]
struct Layout {
    blocks_in_cell: usize,
    columns: usize,
    rows: usize,
    /// Width and height of a cell.
    size: usize,
}

impl Layout {
    /// A cell is as few blocks as fit, in powers of two.
    fn of(blocks: usize) -> Layout {
        let mut blocks_in_cell = 1;
        while (blocks + blocks_in_cell - 1) / blocks_in_cell > MOST_COLUMNS * MOST_COLUMNS {
            blocks_in_cell *= 2;
        }
        let cells = (blocks + blocks_in_cell - 1) / blocks_in_cell;
        let mut columns = LEAST_COLUMNS;
        while columns * columns < cells && columns < MOST_COLUMNS {
            columns *= 2;
        }
        Layout { blocks_in_cell, columns, rows: (cells + columns - 1) / columns, size: GRID / columns }
    }
}

/// What the blocks of one cell, or of the whole map, are.
type Counts = [u64; CLASSES];

/// Each cell's class, and how many blocks are drawn as what.
struct Cells {
    layout: Layout,
    classes: Vec<Class>,
    counts: Counts,
}

impl Cells {
    fn of(map: &[u8], report: &Report) -> Cells {
        let layout = Layout::of(map.len());
        let mut by_byte = [FREE; 256];
        for (byte, class) in (0..=u8::MAX).zip(&mut by_byte) {
            *class = class_of(Cell(byte));
        }
        let mut counts = [0; CLASSES];
        let mut classes = Vec::new();
        for blocks in map.chunks(layout.blocks_in_cell) {
            let mut cell = [0; CLASSES];
            blocks.iter().for_each(|&byte| cell[usize::from(by_byte[usize::from(byte)])] += 1);
            classes.push(class_of_cell(&cell));
            counts.iter_mut().zip(cell).for_each(|(sum, n)| *sum += n);
        }
        let mut cells = Cells { layout, classes, counts };
        for (block, class) in named(report) {
            if let Some(&byte) = usize::try_from(block).ok().and_then(|block| map.get(block)) {
                cells.mark(block, by_byte[usize::from(byte)], class);
            }
        }
        cells
    }

    /// Draws a block louder than the map alone has it.
    fn mark(&mut self, block: u64, before: Class, class: Class) {
        self.counts[usize::from(before)] -= 1;
        self.counts[usize::from(class.max(before))] += 1;
        let cell = &mut self.classes[block as usize / self.layout.blocks_in_cell];
        *cell = class.max(*cell);
    }
}

/// The blocks that the report names, each once. One of the pool, or of the ring of its bitmap, may lie past the container.
fn named(report: &Report) -> BTreeMap<u64, Class> {
    let problems = report.problems.first.iter().map(|problem| (problem.block, PROBLEM));
    // the louder one comes last, and stays
    problems.chain(report.overlaps.first.iter().map(|overlap| (overlap.block, TWICE))).collect()
}

fn class_of(cell: Cell) -> Class {
    match cell.owner() {
        _ if cell.is_lost() => LOST,
        _ if cell.is_leaked() => LEAKED,
        Some(kind) => class_of_kind(kind),
        None => FREE,
    }
}

fn class_of_kind(kind: Kind) -> Class {
    kind.number() as Class
}

fn class_of_cell(counts: &Counts) -> Class {
    let loud = (LEAKED..=TWICE).rev().find(|&class| counts[usize::from(class)] != 0);
    let owners = (FREE + 1..LEAKED).rev().filter(|&class| counts[usize::from(class)] != 0);
    loud.or_else(|| owners.max_by_key(|&class| counts[usize::from(class)])).unwrap_or(FREE)
}

/// Points, each a number in the palette.
pub struct Picture {
    width: usize,
    height: usize,
    points: Vec<u8>,
    /// Where the cells stand, for programs.
    cells: String,
}

impl Picture {
    pub fn of(checked: &Checked, report: &Report) -> Picture {
        let cells = Cells::of(checked.map, report);
        let (titles, legend) = (titles(checked, report, &cells.layout), legend(report, &cells.counts));
        let top = MARGIN + titles.len() * LINE + MARGIN / 2;
        let bottom = top + cells.layout.rows * cells.layout.size + MARGIN;
        let legend_rows = (legend.len() + 1) / 2;
        let (width, height) = (GRID + 2 * MARGIN, bottom + legend_rows * LINE + MARGIN);
        let Layout { blocks_in_cell, columns, size, .. } = cells.layout;
        let told = format!("x {MARGIN} y {top} size {size} columns {columns} blocks {blocks_in_cell}");
        let mut picture = Picture { width, height, points: vec![PAPER; width * height], cells: told };
        for (i, line) in titles.iter().enumerate() {
            picture.text(MARGIN, MARGIN + i * LINE, GRID, line);
        }
        picture.grid(&cells, top);
        for (i, (class, line)) in legend.iter().enumerate() {
            let (x, y) = (MARGIN + i / legend_rows * (GRID / 2), bottom + i % legend_rows * LINE);
            picture.fill(x, y, font::HEIGHT, font::HEIGHT, *class);
            picture.text(x + 2 * font::HEIGHT, y, GRID / 2 - 2 * font::HEIGHT, line);
        }
        picture
    }

    fn grid(&mut self, cells: &Cells, top: usize) {
        let Layout { columns, size, .. } = cells.layout;
        let side = size - usize::from(size >= GAP_FROM);
        for (row, classes) in cells.classes.chunks(columns).enumerate() {
            let y = top + row * size;
            for (column, &class) in classes.iter().enumerate() {
                self.fill(MARGIN + column * size, y, side, side, class);
            }
            // one small cell is easily overlooked: its row has a mark on both sides
            if let Some(&class) = classes.iter().max().filter(|&&class| class > LEAKED) {
                self.fill(MARGIN / 4, y, MARGIN / 2, side, class);
                self.fill(MARGIN + GRID + MARGIN / 4, y, MARGIN / 2, side, class);
            }
        }
    }

    fn fill(&mut self, x: usize, y: usize, width: usize, height: usize, colour: u8) {
        for row in self.points.chunks_mut(self.width).skip(y).take(height) {
            row[x..x + width].fill(colour);
        }
    }

    /// As many letters as there is room for.
    fn text(&mut self, x: usize, y: usize, room: usize, text: &str) {
        for (i, letter) in text.chars().take(room / font::WIDTH).enumerate() {
            for (down, row) in font::rows(letter).iter().enumerate() {
                for across in (0..font::WIDTH).filter(|across| row >> (font::WIDTH - 1 - across) & 1 == 1) {
                    self.points[(y + down) * self.width + x + i * font::WIDTH + across] = INK;
                }
            }
        }
    }

    pub fn write(&self, path: &Path) -> io::Result<()> {
        files::write(path, |file| {
            let side = |length: usize| u32::try_from(length).expect("a picture of some thousand points");
            let mut png = png::Encoder::new(file, side(self.width), side(self.height));
            png.set_color(png::ColorType::Indexed);
            png.set_depth(png::BitDepth::Eight);
            png.set_palette(PALETTE.concat());
            png.add_text_chunk("Software".into(), "apfs-space-check".into())?;
            png.add_text_chunk("Cells".into(), self.cells.clone())?;
            let mut writer = png.write_header()?;
            writer.write_image_data(&self.points)?;
            Ok(writer.finish()?)
        })
    }
}

fn titles(checked: &Checked, report: &Report, layout: &Layout) -> [String; 2] {
    let (blocks, size) = (checked.map.len(), space_check::block_size(checked.container.bytes));
    let cell = match layout.blocks_in_cell {
        1 => "a cell is a block".to_string(),
        n => format!("a cell is {n} blocks"),
    };
    let verdict = report.verdict;
    [checked.title(), format!("xid {}   {verdict}   {blocks} blocks of {size} bytes   {cell}", report.xid)]
}

/// Every class with the blocks that are drawn so, the loudest first.
fn legend(report: &Report, counts: &Counts) -> Vec<(Class, String)> {
    let counted = |class: Class, name: &str| (class, format!("{name}: {}", counts[usize::from(class)]));
    let (twice, problems) = (of_all(&report.overlaps), of_all(&report.problems));
    let mut legend = vec![
        counted(TWICE, &format!("claimed twice{twice}")),
        counted(LOST, "in use but marked free (lost)"),
        counted(PROBLEM, &format!("internal-pool problem{problems}")),
        counted(LEAKED, "marked, no owner found (leaked)"),
    ];
    legend.extend(Kind::ALL.iter().map(|&kind| counted(class_of_kind(kind), kind.name())));
    legend.push(counted(FREE, "free"));
    legend
}

/// Says so where the report names only the first of those that were met.
fn of_all<T>(log: &Log<T>) -> String {
    if log.total > log.first.len() as u64 {
        format!(", first {} of {}", log.first.len(), log.total)
    } else {
        String::new()
    }
}

#[cfg(test)]
mod tests {
    use super::*;

    #[test]
    fn layouts() {
        let told = |blocks| {
            let Layout { blocks_in_cell, columns, rows, size } = Layout::of(blocks);
            [blocks_in_cell, columns, rows, size]
        };
        assert_eq!(told(1), [1, 16, 1, 48]);
        assert_eq!(told(16), [1, 16, 1, 48]);
        assert_eq!(told(257), [1, 32, 9, 24]);
        assert_eq!(told(65_536), [1, 256, 256, 3]);
        assert_eq!(told(65_537), [2, 256, 129, 3]);
        assert_eq!(told(1 << 29), [8192, 256, 256, 3]);
        assert_eq!(told((1 << 32) - 1), [65_536, 256, 256, 3]);
    }

    #[test]
    fn what_needs_a_look_wins() {
        let cell = |bytes: &[u8]| {
            let mut counts = [0; CLASSES];
            bytes.iter().for_each(|&byte| counts[usize::from(class_of(Cell(byte)))] += 1);
            class_of_cell(&counts)
        };
        assert_eq!(cell(&[0, 0]), FREE);
        assert_eq!(cell(&[0, 0, 0x17]), 7);
        assert_eq!(cell(&[0x14, 0x13, 0x13]), 3);
        assert_eq!(cell(&[0x14, 0x13]), 3, "of equals the lower number");
        assert_eq!(cell(&[0x1a, 0x1b, 0x1b]), 11);
        assert_eq!(cell(&[0x1b, 0x1b, 0x10]), LEAKED);
        assert_eq!(cell(&[0x10, 0x10, 0x13, 0x03]), LOST);
    }

    #[test]
    fn owners_have_classes_of_their_own() {
        assert!(Kind::ALL.iter().all(|&kind| (FREE + 1..LEAKED).contains(&class_of_kind(kind))));
    }
}
