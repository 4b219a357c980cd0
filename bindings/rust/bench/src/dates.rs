//! The dates at which sheets are checked, drafts completed and lines written.

/// An order's date and a record, for each in its own types.
#[derive(Clone, Copy)]
pub struct Dated {
    /// What the name of a row has behind it.
    pub name: &'static str,
    library: kieselbrot::Terms,
    reference: (reference::Date, reference::Record),
}

/// The program's date, with the record that R-7 gives.
pub const GIVEN: Dated = Dated {
    name: "",
    library: kieselbrot::Terms::given(kieselbrot::Date(20240101)),
    reference: (reference::Date(20240101), reference::Record::GIVEN),
};

/// Another date with another record, by which the same 22 statuses are allowed.
pub const ANOTHER: Dated = Dated {
    name: ", another record",
    library: kieselbrot::Terms::new(
        kieselbrot::Date(20240115),
        kieselbrot::Record {
            first32: kieselbrot::Date(20231002),
            first33: kieselbrot::Date(20240102),
            last02: kieselbrot::Date(20231230),
        },
    ),
    reference: (
        reference::Date(20240115),
        reference::Record {
            first32: reference::Date(20231002),
            first33: reference::Date(20240102),
            last02: reference::Date(20231230),
        },
    ),
};

type Checked = Result<kieselbrot::Class, kieselbrot::Refusal>;
type CheckedBySecond = Result<reference::Class, reference::Refusal>;
type Completed = Result<kieselbrot::Completed, kieselbrot::Refusal>;
type CompletedBySecond = Result<reference::Completed, reference::Refusal>;
type Written = Result<usize, kieselbrot::Refusal>;
type WrittenBySecond = Result<usize, reference::Refusal>;

impl Dated {
    /// The library's check.
    pub fn check(&self, sheet: &[u8]) -> Checked {
        kieselbrot::check(sheet, self.library)
    }

    /// The second implementation's.
    pub fn check_by_second(&self, sheet: &[u8]) -> CheckedBySecond {
        let (date, record) = self.reference;
        reference::check(sheet, date, record)
    }

    /// The library's completion.
    pub fn complete(&self, draft: &[u8], sheet: &mut [u8]) -> Completed {
        kieselbrot::complete(draft, sheet, self.library)
    }

    /// The second implementation's.
    pub fn complete_by_second(&self, draft: &[u8], sheet: &mut [u8]) -> CompletedBySecond {
        let (date, record) = self.reference;
        reference::complete(draft, sheet, date, record)
    }

    /// The library's quick completion.
    pub fn quick(&self, draft: &[u8], sheet: &mut [u8]) -> kieselbrot::Quickened {
        kieselbrot::quick(draft, sheet, self.library)
    }

    /// The second implementation's.
    pub fn quick_by_second(&self, draft: &[u8], sheet: &mut [u8]) -> reference::Quick {
        let (date, record) = self.reference;
        reference::quick(draft, sheet, date, record)
    }

    /// The library's writer of MT103 lines.
    pub fn write_lines(&self, sheet: &[u8], buffer: &mut [u8]) -> Written {
        kieselbrot::write_lines(sheet, self.library, buffer)
    }

    /// The second implementation's.
    pub fn write_lines_by_second(&self, sheet: &[u8], buffer: &mut [u8]) -> WrittenBySecond {
        let (date, record) = self.reference;
        reference::write_lines(sheet, date, record, buffer)
    }
}
