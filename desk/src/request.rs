//! A request from the command line: a sheet, or its parts by options.
use crate::arguments::Arguments;
use crate::csv::Cells;
use crate::fault::{trouble, Result};
use crate::grid::Grid;
use crate::numerals::{all, number};
use crate::wording::{count, vector};
use crate::{files, maps, sheet};
use zohmirka::{Chain, Kernel, NamedWindow, Request};

pub const WINDOWS: [(&str, NamedWindow); 5] = [
    ("cross", NamedWindow::Cross),
    ("four", NamedWindow::Four),
    ("square", NamedWindow::Square),
    ("seven", NamedWindow::Seven),
    ("nineteen", NamedWindow::Nineteen),
];

/// Window, box and kernel as options name them, for a grid of any dimensions.
pub struct Parts {
    window: Window,
    bounds: Option<Vec<(i32, i32)>>,
    kernel: Kernel,
}

enum Window {
    Named(NamedWindow),
    Offsets(Vec<Vec<i16>>),
}

impl Parts {
    pub fn asked(arguments: &Arguments) -> Result<Parts> {
        let window = arguments.needed("--window", "cross")?;
        let kernel = arguments.needed("--kernel", "blend:0.5,0.125")?;
        Ok(Parts {
            window: Window::of(window)?,
            bounds: arguments.value("--box").map(bounds_of).transpose()?,
            kernel: kernel_of(kernel)?,
        })
    }

    /// The request of these parts on a grid, where they have its dimensions.
    pub fn on(&self, grid: &Grid) -> Result<Request> {
        let dims = grid.dimensions();
        let mut request = grid.request().kernel(self.kernel);
        match &self.window {
            Window::Named(name) => request = request.named(*name),
            Window::Offsets(offsets) => {
                for offset in offsets {
                    fits("--window: the offset", &vector(offset), offset.len(), dims)?;
                    request = request.reference(offset);
                }
            }
        }
        if let Some(ends) = &self.bounds {
            fits("--box: the box", "", ends.len(), dims)?;
            request = request.bounds(ends);
        }
        Ok(request)
    }
}

fn fits(what: &str, shown: &str, has: usize, dims: usize) -> Result<()> {
    if has == dims {
        return Ok(());
    }
    let space = if shown.is_empty() { "" } else { " " };
    let has = count(has, "dimension");
    trouble(format!(
        "{what}{space}{shown} has {has}, and the grid {dims}"
    ))
}

impl Window {
    fn of(text: &str) -> Result<Window> {
        if let Some((_, name)) = WINDOWS.iter().find(|(name, _)| *name == text) {
            return Ok(Window::Named(*name));
        }
        match all(text, ';', |offset| all(offset, ',', number)) {
            Some(offsets) => Ok(Window::Offsets(offsets)),
            None => {
                let names = WINDOWS.map(|(name, _)| name).join(", ");
                trouble(format!(
                    "--window {text:?}: {names}, or offsets as in \"0,0;0,-1;1,0\""
                ))
            }
        }
    }
}

fn bounds_of(text: &str) -> Result<Vec<(i32, i32)>> {
    let ends = |part: &str| {
        let (low, high) = part.split_once("..")?;
        Some((number(low)?, number(high)?))
    };
    match all(text, ',', ends) {
        Some(bounds) => Ok(bounds),
        None => trouble(format!(
            "--box {text:?}: lowest and highest index of each dimension, as in 1..2,2..3"
        )),
    }
}

fn kernel_of(text: &str) -> Result<Kernel> {
    let (name, factors) = text.split_once(':').unwrap_or((text, ""));
    let factor = |text: &str| Cells::F32.word(text).map(f32::from_bits);
    let factors: std::result::Result<Vec<f32>, String> = factors.split(',').map(factor).collect();
    match (name, factors.as_deref()) {
        ("raw", _) if name == text => Ok(Kernel::Raw),
        ("difference", _) if name == text => Ok(Kernel::Difference),
        ("scaled", Ok(&[factor])) => Ok(Kernel::Scaled(factor)),
        ("blend", Ok(&[a, b])) => Ok(Kernel::Blend { a, b }),
        ("scaled" | "blend", Err(wrong)) if name != text => {
            trouble(format!("--kernel {text:?}: {wrong}"))
        }
        _ => trouble(format!(
            "--kernel {text:?}: raw, difference, scaled:F or blend:A,B"
        )),
    }
}

/// What a kernel is called on the command line.
pub fn kernel_name(kernel: Kernel) -> String {
    match kernel {
        Kernel::Raw => "raw".into(),
        Kernel::Difference => "difference".into(),
        Kernel::Scaled(factor) => format!("scaled:{factor}"),
        Kernel::Blend { a, b } => format!("blend:{a},{b}"),
    }
}

/// What a box is called on the command line.
pub fn box_name(ends: &[(i32, i32)]) -> String {
    let ends: Vec<String> = ends
        .iter()
        .map(|(low, high)| format!("{low}..{high}"))
        .collect();
    ends.join(",")
}

/// A request sheet, and where it came from.
pub struct Source {
    /// The file; none where options made the sheet.
    name: Option<String>,
    pub sheet: Vec<u8>,
}

impl Source {
    /// The request sheet of a command: its operand, or its options.
    pub fn asked(arguments: &Arguments) -> Result<Source> {
        let Some(name) = arguments.operands.first() else {
            let parts = Parts::asked(arguments)?;
            return Ok(Source {
                name: None,
                sheet: parts.on(&Grid::asked(arguments)?)?.sheet(),
            });
        };
        let request = ["--grid", "--window", "--box", "--kernel"];
        arguments.without(
            &[&request, maps::CSV, maps::DIALECT].concat(),
            "a request sheet is named",
        )?;
        Source::read(name)
    }

    /// The request sheet of a file.
    pub fn read(name: &str) -> Result<Source> {
        Ok(Source {
            name: Some(name.to_string()),
            sheet: files::read(name)?,
        })
    }

    /// The chain sheet, and the chain.
    pub fn plan(&self) -> Result<(Vec<u8>, Chain)> {
        let planned = zohmirka::plan(&self.sheet);
        let planned = planned.and_then(|sheet| Chain::read(&sheet).map(|chain| (sheet, chain)));
        planned.map_err(|refusal| match &self.name {
            Some(name) => sheet::refused(
                files::shown(name),
                &self.sheet,
                sheet::Kind::Request,
                refusal,
            ),
            None => sheet::refused_options(&self.sheet, refusal),
        })
    }
}
