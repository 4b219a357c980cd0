//! What `--help` prints.

/// What `kieselbrot --help` prints.
pub const ALL: &str = "\
Usage: kieselbrot SUBCOMMAND ..

Payment orders to the Russian budget under order 107n, by the proved library.

  complete ORDER                     completes one order
  book FILE                          completes all orders of a book
  check SHEET                        checks a sheet against the rules
  swift SHEET                        writes the MT103 lines of a sheet
  swift --read BLOCK                 reads MT103 lines
  charge AMOUNT RATE LEAST GREATEST  the bank's charge
  part AMOUNT DAYS YEAR              part of a year's amount
  shares AMOUNT YEAR DAYS..          a year's amount shared among periods
  register FILE --amount A           pools the register of an order by INN
  leave FILE --balance B             which payments leave an account first

kieselbrot SUBCOMMAND --help says more; kieselbrot --version tells the version. A file
named - is standard input. With --json the answer is one JSON object a line.

Exit status: 0 done, and nothing to look at; 1 the answer is a refusal; 2 usage, or what
can't be read or written; 3 completed, but messages clash or don't read.
";

/// What each subcommand's help ends with.
pub const STATUS: &str = "\
  --json         one JSON object a line instead of words
  --help         this

A file named - is standard input.

Exit status: 0 done, and nothing to look at; 1 the answer is a refusal; 2 usage, or what
can't be read or written; 3 completed, but messages clash or don't read.
";

macro_rules! dates {
    () => {
        "\
  --date D       the order's date, YYYY-MM-DD or YYYYMMDD; 20240101 if not given
  --first32 D    the first date for status 32; 20231001
  --first33 D    the first date for status 33; 20240101
  --last02 D     the last date for status 02; 20231231"
    };
}

macro_rules! amounts {
    () => {
        "\
An amount is roubles with two decimals (12.34) or kopecks with a k (1234k).
"
    };
}

/// The help of a subcommand, if there is one of this name.
pub fn of(subcommand: &str) -> Option<&'static str> {
    Some(match subcommand {
        "complete" => concat!(
            "\
Usage: kieselbrot complete [--html | --json] [--date D] .. ORDER

Completes an order. ORDER has a line FIELD REVISION TEXT for each message, in UTF-8, with
one space between the items; with \"client\" before it, as in \"client 108 1 17\", it is the
client's, otherwise the adviser's. Lines that are blank or begin with # are left out.
Prints the lines that don't read and the messages that clash; those that are older or the
same; the answer in words, with all causes; the fifteen fields, each with the message that it
comes from.

  --html         a page to print on one sheet of A4 instead
",
            dates!()
        ),
        "book" => concat!(
            "\
Usage: kieselbrot book [--json] [--date D] .. FILE

Completes every order of a book. FILE has lines ORDER FIELD REVISION TEXT, or ORDER client
FIELD REVISION TEXT, the orders mixed in any way. ORDER is a name without spaces that does
not begin with #. For each order, in the order of first appearance, one line:
  NAME ANSWER COUNT FILLED CLASHES CAUSE
ANSWER is ok, the refusal's number, or unread if a line of the order does not read; COUNT
that of fillings, FILLED the proposed fields, CLASHES how many messages clash, CAUSE the
first cause; - is none. Below an empty line stands a summary. Wrong lines are named on
standard error. The status is 1 if an order is refused, otherwise 3 if messages clash or
lines don't read.

",
            dates!()
        ),
        "check" => concat!(
            "\
Usage: kieselbrot check [--json] [--date D] .. SHEET

Checks a sheet. SHEET has a line FIELD TEXT for each field that is not blank. Prints its
class, or all broken rules, each with its field and what it wants.

",
            dates!()
        ),
        "swift" => concat!(
            "\
Usage: kieselbrot swift [--json] [--date D] .. SHEET
       kieselbrot swift [--json] --read BLOCK

Writes the MT103 lines of an accepted sheet of class A; SHEET is as for check. With --read,
reads such lines and prints lines FIELD TEXT.

  --read         reads
",
            dates!()
        ),
        "charge" => concat!(
            "\
Usage: kieselbrot charge [--json] AMOUNT RATE LEAST GREATEST

The bank's charge: AMOUNT times RATE, halves of a kopeck upward, raised to LEAST, lowered to
GREATEST. RATE is percent (0.50%) or hundredths of a percent (50).
",
            amounts!()
        ),
        "part" => concat!(
            "\
Usage: kieselbrot part [--json] AMOUNT DAYS YEAR

The part of a year's AMOUNT for so many DAYS of a YEAR of 365 or 366, in whole kopecks,
with what remains.
",
            amounts!()
        ),
        "shares" => concat!(
            "\
Usage: kieselbrot shares [--json] AMOUNT YEAR DAYS..

A year's AMOUNT shared among up to 12 periods, which make the YEAR of 365 or 366 days.
Prints a line DAYS SHARE for each.
",
            amounts!()
        ),
        "register" => concat!(
            "\
Usage: kieselbrot register [--json] FILE --amount A

Pools the register of an order by INN and holds it against the order's amount. FILE has
lines INN AMOUNT, and so has what is printed.
",
            amounts!(),
            "
  --amount A     the order's amount"
        ),
        "leave" => concat!(
            "\
Usage: kieselbrot leave [--json] FILE --balance B

Which payments leave an account first: by priority, then by arrival, until the first that
exceeds what is left. FILE has lines PRIORITY ARRIVAL AMOUNT; they are printed in that
order, each with paid or waits.
",
            amounts!(),
            "
  --balance B    the account's balance"
        ),
        _ => return None,
    })
}
