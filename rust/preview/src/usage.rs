//! What `preview --help` prints.

pub const USAGE: &str = "\
usage: preview KIND FILE [OPTION]..

Reads a payload, draws it as an SVG picture and lists what was read.

KIND is what the payload holds, by name or by number:
  equi or 0    a crop of the sphere
  cbmp or 1    a cube map
  mesh or 2    a mesh list
FILE is the payload, as raw bytes.

  --out FILE.svg    where the picture goes (beside the payload, with the ending svg)
  --mesh N          the mesh of a list that is shown from three sides: 1 is the right eye's (0)
  --rings N         rows of a crop's grid (18)
  --sectors N       columns of a crop's grid (36)
  --cells N         cells along a cube face's side (4)
  --radius R        half of a cube's side (1)
  --face-width N    pixels along a cube face's side (1024)
  -h, --help        this text

What is not given is as in brackets. A payload that is refused is told by a number and its meaning,
and no picture is written. The status is 0 where all was done, 1 where there is no picture, and 2
where the line is wrong.

  preview mesh samples/dome.bin --out dome.svg
";

/// What a message about a wrong line ends with.
pub const HINT: &str = "preview --help shows the usage";
