//! The text of --help.

/// The help.
pub const TEXT: &str = "\
cuckoosilver draws, cleans up, measures and shows labelled quad sheets around
a band of a scalar field.

usage: cuckoosilver [OPTION | STEP]...
       cuckoosilver example [FOLDER]

Steps are done in the order given; an option holds for the steps after it.
With no words it runs the example. Results go to standard output, progress and
warnings to standard error.

steps that bring or change the sheet
  draw CELLS              draw the sheet around the band, with 4 to 128 cells
  read FILE.ply           read a sheet; - is standard input
  open FILE.job           open a job file: a sheet with its box and its levels;
                          - is standard input
  refine                  make each quad four
  subdivide               refine, smooth and put back onto the band
  rows                    add a row of quads along each border between labels
  regularize [PASSES]     swap edges, towards four quads at each point
  improve [PASSES]        the same, and swap for better shapes
  coarsen [PASSES]        merge corners of quads; PASSES is 1 where not given

steps that show the sheet
  display                 two lines: the quads, and the bad points
  page                    eight counts, one a line
  quality                 the counts, all measures, whether it is tight (each
                          edge with two quads that run opposite ways, no bad
                          point: clean-up keeps it so), and whether it is valid
  corners                 two lines: the corners per point, that is 4 * quads /
                          points as a whole number, and the exact remainder
  check                   go on only if the sheet is valid: closed, the quads of
                          each point one ring, no quad twice or turned over
  write FILE.ply          write the sheet, its labels as colours too; - is
                          standard output: all else goes to standard error then
  save FILE.job           save the sheet, the box and the levels as a job file,
                          bit for bit; - is standard output, as for write
  picture FILE.svg|.png   draw a picture of the sheet

step that needs no sheet
  sum FILE.job            one line: the squared sum that the trailer of a job
                          file says, that is the sum over the points of (quads
                          at the point minus 4) squared; none in a file that was
                          saved before the sum was in it. The sheet is not
                          opened, and the sum is not compared with it; - is
                          standard input

options
  --plane A B C D         the field a*x + b*y + c*z - d
  --ball X Y Z R          the squared distance from (x, y, z), less r; so r is
                          no radius: level L is the sphere of radius sqrt(L + r)
  --quadric K0 .. K9      k0*x*x + k1*y*y + k2*z*z + k3*x*y + k4*y*z + k5*z*x
                          + k6*x + k7*y + k8*z + k9
  --box X Y Z X Y Z       the low corner of the box, then the high corner
  --levels LOWER UPPER    the band is where the field is between the two; both
                          are finite, but where a sheet is measured (display,
                          page, quality, corners, check) LOWER may be -inf
  --label N               the label, 0 to 7, of quads that are read with neither
                          a label nor a colour
  --ascii, --binary       how PLY files are written; binary where not given
  --view X Y Z            where pictures are seen from; 1 -1.6 1.5
  --size PIXELS           the side of pictures, 16 to 4096; 800
  --quiet                 no progress and no warnings
  --help, --version

A file that was written has its band in a comment, so a sheet that is read
needs no options. A job file has the box and the levels but no field: after open
a step that asks for the band needs --plane, --ball or --quadric. What a file
says of the band holds where no option gave it: with --box or --levels the
option holds, also where the file says otherwise, and save saves the option's.
A job file whose squared sum is not that of its sheet is refused by open. One
whose lower level is -inf opens, so that an old sheet can be measured and saved.
A file that is there already is replaced once the new one is whole. After each
step that brings or changes the sheet, a warning tells of bad points and of
quads turned over or collapsed that were not there before.

examples
  cuckoosilver --ball 0 0 0 0 --box -1 -1 -1 1 1 1 --levels 0.25 0.64 \\
      draw 32 coarsen 4 regularize 8 quality write shell.ply
  cuckoosilver read shell.ply subdivide check display picture shell.png
  cuckoosilver --plane 0 0 1 0 --box 0 0 0 4 4 4 --levels 1 2 \\
      draw 8 rows page save wall.job
  cuckoosilver --plane 0 0 1 0 open wall.job quality
  cuckoosilver sum wall.job

exit codes
  0 all steps are done; 1 a step is refused, a sheet that is checked is not
  valid, or a file cannot be read or written; 2 the command line is wrong;
  141 nobody reads what is written. A refusal has a number and a word:
   1 box     3 cells   4 samples  5 bare    6 corner  7 clash   8 edge
   9 astray 10 row    11 normal  12 large  13 short  14 trailer
  17 sum
";
