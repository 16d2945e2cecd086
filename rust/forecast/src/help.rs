//! What the tool says about itself: a page for each command.

/// The commands, in the order of a day's work, each with its page.
const PAGES: [(&str, &str); 6] = [
    ("make", MAKE),
    ("show", SHOW),
    ("step", STEP),
    ("run", RUN),
    ("compare", COMPARE),
    ("draw", DRAW),
];

/// The names of the commands.
pub fn commands() -> impl Iterator<Item = &'static str> {
    PAGES.iter().map(|(name, _)| *name)
}

/// The page of a command.
pub fn page(command: &str) -> Option<&'static str> {
    let found = PAGES.iter().find(|(name, _)| *name == command);
    found.map(|(_, page)| *page)
}

/// The lines of a page that say how to call.
pub fn short(page: &'static str) -> &'static str {
    page.split("\n\n").next().unwrap_or(page).trim_end()
}

/// The page of the tool.
pub const OVERVIEW: &str = "\
usage: forecast make TEXT RECORD
       forecast show [--text | --cell I J] RECORD
       forecast step RECORD [OUT] [OPTION]...
       forecast run RECORD [OUT] (--steps N | --until TIME) [OPTION]...
       forecast compare RECORD RECORD
       forecast draw RECORD PICTURE [OPTION]...
       forecast help [COMMAND]
       forecast --version

make     writes the record of a text description
show     says what a record holds; with --text, as a text description; with --cell,
         how a cell changes
step     takes one step
run      takes N steps, or those until a time, with rivers, a table of gates and
         the record after the last step
compare  says same, first newer, second newer or clash
draw     draws level and current: a picture, a series, or a page to play

`forecast COMMAND --help` says more of each. RECORD is a file, or - for standard
input (TEXT too). What is written is written beside its place and then put there
whole. Times are UTC.

Exit status: 0 a result, 1 refused by the core, 2 anything else.
";

const MAKE: &str = "\
usage: forecast make TEXT RECORD

Writes the record of a text description. TEXT is a file, or - for standard input.
It has one line for each thing it says; # starts a comment.

  grid 32 20                   columns and rows; comes before the fields
  boundary basin               walls all round; channel: in the south and
                               north alone; periodic: none
  gravity 9810                 mm/s²
  coriolis 10                  Coriolis parameter times spacing, mm/s
  spacing-per-step 40000       spacing over time step, mm/s; or both of:
  spacing 20000                mm from one cell to the next
  step-ms 500                  milliseconds of a step
  time 2026-11-16 06:00:00     UTC; or to the millisecond 06:00:00.250

  bottom 0                     height of the bottom, mm: everywhere,
  bottom 8000 box 3 2 9 6      in a box, its corner cells included,
  bottom 900 cell 3 2          in one cell
  depth 12000                  mm
  level 12000                  depth becomes level less the bottom given so far
  level columns 12300 ...      a number for each column, from west to east
  u rows                       a line for each row, from north to south, each
                               with a number for each column
  u 0                          through the west edge of each cell, mm/s
  v 0                          through the south edge of each cell, mm/s
  barrier west 12 3            closes the west edge of a cell; south: its south
                               edge; u or v is 0 there
  barrier south box 4 7 9 7    the same of each cell of a box
  barriers rows                all of them: 1 on the west edge, 2 on the south
                               edge, 3 on both

Cells are counted from 0, columns from the west and rows from the south. A later
line goes over an earlier one, but a barrier adds to those that are there. What
is not given of bottom, u, v and barriers is 0. spacing over step-ms must be a
whole number of mm/s; a record holds that number alone.

Exit status: 0 written, 1 refused by the core, 2 a fault of the text or a file.
";

const SHOW: &str = "\
usage: forecast show [--text] RECORD
       forecast show RECORD --cell I J [--cell I J]...

Says what a record holds: grid, boundary, constants, timestamp (UTC), totals, the
range of each field, and of a small grid every cell; and what a step can do: wave
speed over spacing-per-step, the least slope that it moves, the least current that
carries water.

--text       as a text description, of which make makes the same record
--cell I J   the tendencies of cell I J in double precision, and how far to trust
             them; may be repeated. -D is the rate of depth times 2 spacings, Tu
             and Tv are the rates of u and v at its west and south edge times
             spacing times 3,145,728. They are exact, those of the scheme, or
             near: Tu and Tv are then off by at most 64, and -D is exact

RECORD   a file, or - for standard input

Exit status: 0 shown, 1 refused by the core, 2 anything else.
";

const STEP: &str = "\
usage: forecast step RECORD [OUT] [--inflow I J MM]... [--seconds S[.mmm]]
       [--step-ms MS] [--quiet]

Takes one step, and says total depth before it, what entered, and total depth
after it.

RECORD   a file, or - for standard input
OUT      gets the record after the step; none is written where it is refused

--inflow I J MM   mm that come into cell I J; may be repeated
--step-ms MS      milliseconds of the step: the timestamp of OUT moves by them
--seconds S[.mmm] added to the timestamp of OUT, where the step has no length
--quiet           no note

Exit status: 0 done, 1 refused by the core, 2 anything else.
";

const RUN: &str = "\
usage: forecast run RECORD [OUT] (--steps N | --until TIME) [--step-ms MS]
       [--inflow I J MM]... [--rivers FILE] [--spacing MM] [--description TEXT]
       [--gate NAME I J]... [--every K] [--csv FILE] [--seconds S[.mmm]]
       [--keep] [--quiet]

Takes steps, and says total depth before them, what entered, total depth after
them, and how many are done. A run that the core stops (refusal 6) says after how
many steps and why.

RECORD   a file, or - for standard input
OUT      gets the record after the last step. Whether it can be written is found
         before the run

--steps N         so many steps
--until TIME      steps until this time (UTC), as 2026-11-17T06:00:00; needs the
                  length of a step
--step-ms MS      milliseconds of a step: the timestamp of OUT moves with the
                  steps. Where nothing says how long a step is, it stands still
--spacing MM      mm from one cell to the next: the length of a step follows from
                  it and the record, and rivers may be in litres a second
--description TEXT  takes spacing and step-ms from the text description
--seconds S[.mmm] moves the timestamp of OUT by so much, without --step-ms

--inflow I J MM   mm that come into cell I J with each step; may be repeated
--rivers FILE     flows that change with time, a line each: when, cell, flow
                    2026-11-16 06:00:00  0 5  1.5 mm
                    step 7200            0 5  300 l/s
                  mm are mm a step; l/s need the spacing, by an option or by a
                  line `spacing 20000` of FILE. A flow lasts until the next line
                  of its cell. Fractions are carried from step to step

--gate NAME I J   level and current of cell I J in the table; may be repeated
--csv FILE        gets the table: step, time, total depth, gates
--every K         a line of the table every K steps; 1 where not given
--keep            OUT is written after a stop too, with the time of the stop
--quiet           no progress (which goes to a terminal alone), and no note

Exit status: 0 all steps done, 1 refused or stopped by the core, 2 anything else.
";

const COMPARE: &str = "\
usage: forecast compare RECORD RECORD

Says what two records are to each other:
  same          the same state and timestamp, to the millisecond
  first newer   the first has the later timestamp, whatever the states
  second newer  the second has it
  clash         one timestamp, different states

RECORD   a file; one of the two may be - for standard input

Exit status: 0 one of these four, 1 a record is refused by the core, 2 anything
else.
";

const DRAW: &str = "\
usage: forecast draw RECORD FILE.svg
       forecast draw RECORD FOLDER (--steps N | --until TIME) [OPTION]...
       forecast draw RECORD FILE.html [--steps N | --until TIME] [OPTION]...

Draws level and current: one picture; a series of pictures of a run, and all side
by side in FOLDER/series.svg; or a page with the run to play, for any browser,
which needs no network.

--every K         a frame every K steps; a fifth of them in a series and a
                  hundredth in a page where not given
--gate NAME I J   of a page: names cell I J on the map, and draws its level as a
                  curve; may be repeated

--steps, --until, --step-ms, --spacing, --description, --inflow, --rivers and
--quiet are those of run: see `forecast run --help`.

Exit status: 0 drawn, 1 refused or stopped by the core (what was reached is
drawn), 2 anything else.
";
