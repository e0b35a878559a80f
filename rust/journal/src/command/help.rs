//! What `--help` and `--version` print.

/// Of run, draw and stats: the part of a journal.
const FIRST: &str = "  --first-block N     the first block is number N: the blocks before it are
                      missing. What was begun in them is not known, so every
                      record answers 20 and is not run up to an accepted start
";

/// Of draw and stats: the part to look at.
const VIEW: &str =
    "  --from X, --to Y    only the part from X to Y, each a record's number, as 310,
                      or a processor time since the journal's beginning with
                      its unit, as 120ms, 1.5s or 2min (us, ms, s, min, h)
  --thread N          only thread N, with all refusals; may be given for several
";

/// Of run, draw and stats.
const NAMES: &str =
    "  --names FILE        names of threads: a number and its name a line; '#' begins
                      a comment
  --name N=NAME       a name for thread N; may be given for each
";

const OUTPUT: &str = "  -o, --output FILE   write to FILE, the whole result or nothing
  -h, --help          print this and stop
";

pub fn version() -> String {
    format!(
        "journal {}, on the proved library mtr {}\n",
        env!("CARGO_PKG_VERSION"),
        journal::engine::version()
    )
}

pub fn usage() -> String {
    "\
Usage: journal COMMAND [OPTION].. [FILE]

Journals of the scheduler, rows of event blocks of 512 bytes, as text, as a
picture and in figures. A journal holds the calls that a host made and not
their answers. Answers, shares and lags are computed anew, by the proved library
of the scheduler and by nothing else. 'priorities' is apart from journals: it
checks a customer's own table of priorities, by the same library.

Commands:
  encode      text to blocks
  decode      blocks to text
  run         blocks to text, with the answer to each record beside it
  draw        blocks to a picture (SVG)
  stats       blocks to figures: shares, runs, waits, lags, refusals
  priorities  a table of priorities to its ten mappings beside the standard ones

FILE is read, or standard input where there is none or it is '-'. The result
goes to standard output.

Options of every command:
  -o, --output FILE   write to FILE, the whole result or nothing
  --first-block N     a part of a journal that begins with block N (not of
                      priorities)
  -h, --help          print the help of the command and stop
  -V, --version       print the version and stop

Exit status: 0 if the result was written, or whoever reads it had enough; 1 if
the input was bad or could not be read, or the result could not be written; 2 if
the command line was wrong. Bad input and a wrong command line give no result at
all, and standard error says why and where. A file named with -o keeps its old
contents until the whole result is there, also if the program is killed; what
such a run leaves behind, .FILE.NUMBER.part, the next one takes away.

'journal COMMAND --help' tells more.
"
    .into()
}

pub fn encode() -> String {
    format!(
        "\
Usage: journal encode [OPTION].. [FILE]

Makes blocks of a text with one record a line:

  start thousandth 100 interval 20000 overrun 5
                         without its last two words the overrun limit is 0
  open 2 parent 0 ceiling 300
  close 2
  admit 5 group 0 reservation 500
  admit 9 weight 3       a best-effort thread
  remove 5
  wake 5
  change 5 reservation 700
  dispatch
  report tick 20000      also block, yield and exit, each with the ticks used;
  report reason 200 5    any other reason by its number

Numbers are decimal: groups, threads and reasons 0 to 255, thousandth, overrun,
ceiling, reservation and weight 0 to 65535, interval and ticks 0 to 4294967295. A
record that the scheduler refuses is a record all the same.

  block 3                from here on records go into block 3, up to 31 of them;
                         the number may be left out
  damaged 4 18           block 4, refused with 18, is made of the bytes of the
  hex 0000ff..           lines below it

Records outside any 'block' line are packed, 31 to a block. '#' begins a
comment; empty lines count for nothing.

Options:
  --pack              pack all records, whatever the 'block' lines say
  --first-block N     the first block gets number N, as in a part of a journal
{OUTPUT}
If lines are wrong, standard error names up to 20 of them with their numbers,
nothing is written, and the exit status is 1.
"
    )
}

pub fn decode() -> String {
    format!(
        "\
Usage: journal decode [OPTION].. [FILE]

Makes text of blocks, one record a line, in the form that 'journal encode
--help' describes. Encoding the text gives the same bytes back, whatever they
are: a block that is refused (17 not 512 bytes, 18 check wrong, 19 not the bytes
of this block number and well-formed records) becomes a line 'damaged' with its
place and refusal, and its bytes below it. Standard error says how many there
are; the exit status is 0, since the text is whole.

Options:
  --first-block N     the first block is number N: a part of a journal
{OUTPUT}"
    )
}

pub fn run() -> String {
    format!(
        "\
Usage: journal run [OPTION].. [FILE]

As 'journal decode', with a comment at each record: the five numbers that mtrrun
prints for it (record number, answer, thread, slice, threads before it), and in
words why it was refused, how many ticks a report used beyond its slice, or that a
dispatch was idle or took a best-effort thread. The answers are computed anew by
the proved library; a journal does not hold them.

Options:
  --why RECORD        below the dispatch of this number, as comments, what mtrwhy
                      tells of it: the threads before the chosen one in the list,
                      all of these where it took a best-effort thread, and the
                      best-effort ones too where it is idle, and the record at
                      which each blocked; or why it was refused. May be given for
                      several. A record that is absent, no dispatch or not run is
                      bad input. The names of threads go with it:
{NAMES}{FIRST}{OUTPUT}"
    )
}

pub fn draw() -> String {
    format!(
        "\
Usage: journal draw [OPTION].. [FILE]

Makes an SVG picture of a journal: who had the core when, a lane a thread, with
blocked spans, wakes and refusals; below it the lag of each reserved thread with
the most that the share guarantee lets it be, and the refusals in words. What a
run used beyond its slice is marked, and while others wait the most of their lags
grows by it. A change of a reservation is marked with the thousandths before and
after it; from there on the thread's lag and the most of it begin anew. Where
groups were opened, the lanes stand group by group with the ceilings. Best-effort
threads stand below the others, each with its weight and its part of what all of
them had. Time is the meter, which moves when a report is accepted. From a damaged
or missing block to the next accepted start nothing is run; the picture shows that
as a hatched gap. A journal with many records is thinned out: each pixel column
shows what part of its time a thread had the core or was blocked, and the least
and the greatest lag in it. With --from and --to a part of it is drawn span by
span. All is computed anew from the journal's calls by the proved library.

Options:
  --title TEXT        the picture's title; else the name of FILE
  --width N           the picture's width in pixels, 360 to 4000; else 1120
{VIEW}{NAMES}{FIRST}{OUTPUT}"
    )
}

pub fn stats() -> String {
    format!(
        "\
Usage: journal stats [OPTION].. [FILE]

Tells of each thread its share, runs and wakes, its longest run and wait and its
largest lag with the records that they begin with, the most that the share
guarantee lets the lag be there, what its runs used beyond their slices and the
changes of its reservation; of best-effort threads how they shared what was left,
and how far two of them came apart from their weights, with the most that they
may; then the refusals by number, in words. All is computed anew from the
journal's calls by the proved library.

Options:
  --csv               comma-separated values, a thread a line; times in ticks of
                      a microsecond, lags and bounds in thousandths of ticks
  --csv --best-effort
                      comma-separated values, a best-effort thread a line: its
                      weight, its part of what all of them had, and the thread
                      that it came farthest apart from, in ticks times the other's
                      weight, with the most that these may be
  --csv --refusals    comma-separated values, a kind of refusal a line
{VIEW}{NAMES}{FIRST}{OUTPUT}"
    )
}

pub fn priorities() -> String {
    format!(
        "\
Usage: journal priorities [OPTION].. [FILE]

Checks a customer's own table of priorities, and prints the ten priorities from
the highest down: the reservation of each under the table, in thousandths of the
core, the standard one, which it has where no table is given, and the line of
its row. The table is a text with a row a line, three decimal numbers with blanks
or tabs between them:

  # first last reservation
  1 7 10                 # priorities 1 to 7 have 10 thousandths each
  8 10 40                # priorities 8 to 10 have 40 each

A table has 1 to 10 rows, in any order. In a row first is not above last, both
are from 1 to 10, and the reservation is from 1 to 1000. Each priority from 1 to
10 stands in exactly one row. '#' begins a comment; empty lines count for nothing.

Options:
{OUTPUT}
Whether a table can be used is decided by the proved library and by nothing else.
If it can't be, standard error says in which line and what is wrong, with the
number of the refusal: 4, there are not 1 to 10 rows; 22, the first row that is
wrong; 23, the lowest priority that stands in no row or in several. Lines that
are not three numbers are named before that, up to 20 of them. Nothing is written
then, and the exit status is 1.
"
    )
}
