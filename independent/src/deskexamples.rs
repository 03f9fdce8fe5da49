//! The paper's desk examples and the readings that the desk's output shows.

use crate::check::Checks;
use crate::desk::play_script;

const SAMPLE: &str = "size 2 1 1 16
insert 7 70 0 1 2
insert 5 50 0 1 2
insert 6 60 3 1 2
min
extract
delete 0 0
delete 0 0
extract
";

const SAMPLE_OUTPUT: &str = "0
0 0 0 72
0 0 1 72
10
0 5 50 0 1 0
0 5 50 0 1 40
0 1 40
0 0 40
8
";

/// Input and whole output.
const SCRIPTS: [(&str, &str, &str); 33] = [
    ("P1 to P9", SAMPLE, SAMPLE_OUTPUT),
    ("key 2^64 - 2 is taken", "size 1 1 1 9\ninsert 18446744073709551614 0 0 0 1\n", "0\n0 0 0 32\n"),
    ("key 2^64 - 1 gives 5", "size 1 1 1 9\ninsert 18446744073709551615 0 0 0 1\n", "0\n5\n"),
    ("with h = 1 only leaves 0 and 1 pass",
     "size 1 1 1 9\ninsert 1 1 1 0 0\ninsert 1 1 1 1 1\ninsert 1 1 1 1 0\ninsert 1 1 1 0 2\ninsert 1 1 1 0 1\n",
     "0\n6\n6\n6\n6\n0 1 0 32\n"),
    ("labels from 0 to N-1", "size 1 1 1 9\ninsert 1 1 2 0 1\ninsert 1 1 3 0 1\n", "0\n6\n6\n"),
    ("two equal keys leave by stamp",
     "size 1 2 2 9\ninsert 4 1 1 0 1\ninsert 4 2 0 0 1\nextract\nextract\n",
     "0\n0 1 0 48\n0 0 1 48\n0 4 1 1 0 28\n0 4 2 0 1 28\n"),
    ("7: Full before Overflow", "size 1 1 1 9\ninsert 1 1 0 0 1\ninsert 1 1 0 0 1\ninsert 1 1 0 0 1\n",
     "0\n0 0 0 32\n0 0 1 32\n9\n"),
    ("8: a refused size leaves the heap", "size 1 1 1 9\ninsert 3 4 1 0 1\nsize 0 1 1 9\nmin\n",
     "0\n0 1 0 32\n1\n0 3 4 1 0 0\n"),
    ("8: too big a size leaves the heap", "size 1 1 1 9\ninsert 3 4 1 0 1\nsize 9 2 1 512\nmin\n",
     "0\n0 1 0 32\n?\n0 3 4 1 0 0\n"),
    ("8: an accepted size starts afresh", "size 1 1 1 9\ninsert 3 4 1 0 1\nsize 1 1 1 9\nmin\n",
     "0\n0 1 0 32\n0\n8\n"),
    ("8: lines after a refused size only", "size 17 1 1 9\nmin\nextract\n", "1\n?\n?\n"),
    ("9: T below N with a big tree is 1", "size 16 5 64 65535\n", "1\n"),
    ("9: in range with a big tree is ?", "size 16 5 64 65536\n", "?\n"),
    ("9: trees about 8,192 words", "size 9 1 1 512\nsize 9 2 1 512\nsize 8 3 1 256\nsize 8 4 1 256\n",
     "0\n?\n0\n?\n"),
    ("10: no input", "", ""),
    ("10: an empty line", "\n", "?\n"),
    ("10: two empty lines", "\n\n", "?\n?\n"),
    ("10: the last line may lack its end", "size 1 1 1 9", "0\n"),
    ("10: byte 13 spoils its line", "size 1 1 1 9\r\nmin\n", "?\n?\n"),
    ("11: spaces", "size 1 1 1 9\n min\nmin \nextract \n extract\nsize  1 1 1 9\nmin\t\n\tmin\nsize\t1 1 1 9\n",
     "0\n?\n?\n?\n?\n?\n?\n?\n?\n"),
    ("11: lower case", "Size 1 1 1 9\nSIZE 1 1 1 9\n", "?\n?\n"),
    ("11: zeros and signs", "size 1 1 1 9\ndelete 00 0\ndelete +0 0\ndelete 0 0\ndelete -0 0\n",
     "0\n?\n?\n7\n?\n"),
    ("11: 2^64", "size 1 1 1 18446744073709551616\nsize 1 1 1 18446744073709551615\n", "?\n1\n"),
    ("11: 2^64 - 1 as a number",
     "size 1 1 1 9\ndelete 18446744073709551615 0\ndelete 0 18446744073709551615\ndelete 18446744073709551616 0\n",
     "0\n6\n7\n?\n"),
    ("11: fields too few and too many", "size 1 1 1\nsize 1 1 1 9 9\nsize 1 1 1 9\nmin 0\nextract 0\ndelete 0\n",
     "?\n?\n0\n?\n?\n?\n"),
    ("4 before 7, and FindMin gives 8 though T is spent",
     "size 1 1 1 2\ninsert 1 1 0 0 1\nextract\ndelete 0 0\nmin\n", "0\n0 0 0 32\n0 1 1 0 0 20\n4\n8\n"),
    ("12: Delete while c = 0 is Absent and counted",
     "size 1 1 1 9\ndelete 0 0\ninsert 1 1 0 0 1\nextract\ndelete 0 0\ninsert 1 1 0 0 1\n",
     "0\n7\n0 0 0 32\n0 1 1 0 0 20\n0 0 20\n0 0 3 32\n"),
    ("13: label before stamp", "size 1 1 1 9\ndelete 2 9\ndelete 1 9\n", "0\n6\n7\n"),
    ("13: Spent before label", "size 1 1 1 2\ninsert 1 1 0 0 1\nextract\ndelete 2 9\n",
     "0\n0 0 0 32\n0 1 1 0 0 20\n4\n"),
    ("15: FindMin is not refused by Spent", "size 1 1 1 2\ninsert 1 5 0 0 1\ninsert 0 6 1 0 1\nmin\nextract\n",
     "0\n0 0 0 32\n0 1 1 32\n0 0 6 1 1 0\n4\n"),
    ("16: a live stamp under another label is Absent",
     "size 1 1 2 9\ninsert 1 1 0 0 1\ndelete 1 0\ndelete 0 0\n", "0\n0 0 0 32\n0 0 20\n0 1 20\n"),
    ("lines before any size", "min\ninsert 1 1 0 0 1\nextract\ndelete 0 0\nfoo\nsize 0 0 0 0\nmin\n",
     "?\n?\n?\n?\n?\n1\n?\n"),
    ("T at its ends", "size 1 1 64 1\nsize 1 1 64 2\nsize 1 1 64 4294967295\nsize 1 1 64 4294967296\nsize 1 1 65 2\n",
     "1\n0\n0\n1\n1\n"),
];

pub fn check_desk(checks: &mut Checks) {
    for (name, input, output) in SCRIPTS {
        checks.that(name, play_script(input.as_bytes()) == output.as_bytes());
    }
    // A line of 128 bytes is read as any other, one of 129 is not; neither holds a command here, as
    // no command is so long.
    for length in [127, 128, 129, 5000] {
        let line = vec![b'1'; length];
        checks.that("a long line prints ?", play_script(&line) == b"?\n");
    }
    checks.that(
        "bytes that are no text print ?",
        play_script(&[0, 255, 10, 200, 13]) == b"?\n?\n",
    );
}
